
/* Stands after the first example of noferkash(3), which it runs: standard input to text. */
int main(void) {
    static uint8_t file[NOFERKASH_FILE_LIMIT + 1];
    size_t text_len = 0;
    size_t file_len = fread(file, 1, sizeof file, stdin);
    uint8_t *text = text_of(file, file_len, &text_len);
    size_t written = text == NULL ? 0 : fwrite(text, 1, text_len, stdout);
    free(text);
    return text_len > 0 && written == text_len ? 0 : 1;
}
