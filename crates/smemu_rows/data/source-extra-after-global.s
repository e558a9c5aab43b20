.global _start, loop
