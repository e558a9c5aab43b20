.sme_tail
