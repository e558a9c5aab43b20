.byte 1
_start: .sme_abi
