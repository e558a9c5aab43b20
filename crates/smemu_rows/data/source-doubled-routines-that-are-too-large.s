_start: .sme_abi
.zero 4194076
.sme_abi
