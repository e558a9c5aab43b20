_start: .sme_abi
.sme_abi
