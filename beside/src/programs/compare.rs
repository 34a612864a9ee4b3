fn main() -> std::process::ExitCode {
    beside::compare::main()
}
