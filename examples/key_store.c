/* A store of four entries, each with a public name and a private key of 16 bytes. It tells one bit: whether a guess is the key
   of the entry that is asked for.

   The public input has four names of 8 bytes and then the name that is asked for. The private input has four keys and then
   the guess. */

struct entry {
  char name[8];
  private char *key; /* the pointer is public, the bytes that it points to are private */
};

struct entry store[4];
char wanted[8];
char answer[1];

/* The number of the entry of this name, or -1. Names are public, so a branch may depend on them. */
long lookup(char *name) {
  long i; long k; long same;
  for (i = 0; i < 4; i = i + 1) {
    same = 1;
    for (k = 0; k < 8; k = k + 1)
      if (store[i].name[k] != name[k]) same = 0;
    if (same) return i;
  }
  return -1;
}

/* 1 where the keys are equal. Every byte is looked at, and no branch depends on one. */
private long equal(private char *a, private char *b) {
  long k; long differ;
  differ = 0;
  for (k = 0; k < 16; k = k + 1) differ = differ | (a[k] ^ b[k]);
  return differ == 0;
}

void fill(void) {
  struct entry *e; long i;
  for (i = 0; i < 4; i = i + 1) {
    e = &store[i];
    pub_in(e->name, 8);
    e->key = priv_alloc(16);
    priv_in(e->key, 16);
  }
}

int main(void) {
  private char guess[16]; private char digit[1]; char *key; long found;
  fill();
  pub_in(wanted, 8);
  priv_in(guess, 16);
  found = lookup(wanted);
  if (found < 0) return 1;
  key = store[found].key;
  digit[0] = equal(key, guess) + '0';
  release(digit, answer, 1, 0); /* '1' or '0' */
  pub_out(answer, 1);
  return 0;
}
