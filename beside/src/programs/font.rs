fn main() -> std::process::ExitCode {
    beside::font::main()
}
