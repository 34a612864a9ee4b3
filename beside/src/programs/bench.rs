fn main() -> std::process::ExitCode {
    beside::bench::main()
}
