fn foo() {
    1 + 1
}
