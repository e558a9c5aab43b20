.global
