fn main() {
    beside::compare::changed::main()
}
