.zero 4194084
_start: .sme_abi
