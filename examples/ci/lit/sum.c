// RUN: %build %s -o %t.elf
// RUN: %smemu %t.elf
// RUN: %smemu --slice 1 --threads 4 %t.elf
int main(void) {
    int sum = 0;
    for (volatile int i = 1; i <= 8; i++) sum += i;
    return sum != 36;
}
