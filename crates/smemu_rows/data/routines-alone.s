_start: .sme_abi
