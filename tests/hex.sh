# Sourced by the other scripts. hex: the octets of standard input as digits.
hex() {
    od -An -v -tx1 | tr -d ' \n' | tr a-f A-F
}
