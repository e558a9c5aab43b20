.sme_tail x19 // the block
