_start: .sme_abis
