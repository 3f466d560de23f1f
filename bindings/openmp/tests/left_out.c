/* A call of what is left out prints its name and ends the program. */
void acc_init(int device);
int main(void) {
    acc_init(0);
    return 0;
}
