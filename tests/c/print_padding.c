
/* Stands after an example of noferkash(3), which it runs: the padding of standard input. */
int main(void) {
    static uint8_t file[NOFERKASH_FILE_LIMIT + 1];
    size_t file_len = fread(file, 1, sizeof file, stdin);
    return print_padding(file, file_len) ? 0 : 1;
}
