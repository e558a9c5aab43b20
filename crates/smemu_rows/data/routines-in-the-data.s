_start: .sme_tail
 svc #0
.data
.sme_abi
