private char stored[16];
char name[16];
char answer[1];
private long same(private char *a, private char *b, long n) {
  long ok; long i;
  ok = 1;
  for (i = 0; i < n; i = i + 1) ok = ok & (a[i] == b[i]);
  return ok;
}
int main(void) {
  private char typed[16]; private char res[1]; long got;
  priv_in(stored, 16);
  priv_in(typed, 16);
  got = pub_in(name, 16);
  res[0] = same(stored, typed, 16) + 48;
  release(res, answer, 1, 0);
  pub_out(name, got);
  pub_out(answer, 1);
  return 0;
}
