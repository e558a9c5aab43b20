.global 5
