_start: .sme_abi 1
