_start: svc #0
.sme_abi
.data
.sme_abi
