/* The last byte of a private key goes by way of three locals to the public output. Nothing releases it, so this is refused. */
char answer[1];

int main(void) {
  private char key[16];
  long last; long sum; long digit;
  priv_in(key, 16);
  last = key[15];
  sum = last * 7 + 3;
  digit = '0' + (sum & 7);
  answer[0] = digit;
  pub_out(answer, 1);
  return 0;
}
