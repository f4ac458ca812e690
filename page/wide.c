// What clang calls where WebAssembly has no instruction: products and shifts of 128 bits, and comparisons of memory.
typedef unsigned long usize;
typedef unsigned char u8;
typedef unsigned long long u64;
typedef long long i64;
typedef __int128 i128;
typedef unsigned __int128 u128;

static u128 joined(u64 high, u64 low) { return ((u128)high << 64) | low; }

i128 __multi3(i128 a, i128 b) {
  u64 a_low = (u64)a, b_low = (u64)b, a_high = (u64)((u128)a >> 64), b_high = (u64)((u128)b >> 64);
  u64 a0 = a_low & 0xffffffff, a1 = a_low >> 32, b0 = b_low & 0xffffffff, b1 = b_low >> 32;
  u64 p0 = a0 * b0, p1 = a0 * b1, p2 = a1 * b0, p3 = a1 * b1;
  u64 middle = (p0 >> 32) + (p1 & 0xffffffff) + (p2 & 0xffffffff);
  u64 low = (p0 & 0xffffffff) | (middle << 32);
  u64 high = p3 + (p1 >> 32) + (p2 >> 32) + (middle >> 32) + a_low * b_high + a_high * b_low;
  return (i128)joined(high, low);
}

u128 __ashlti3(u128 value, int n) {
  u64 low = (u64)value, high = (u64)(value >> 64);
  if (n & 64) return joined(low << (n & 63), 0);
  return n ? joined((high << n) | (low >> (64 - n)), low << n) : value;
}

u128 __lshrti3(u128 value, int n) {
  u64 low = (u64)value, high = (u64)(value >> 64);
  if (n & 64) return joined(0, high >> (n & 63));
  return n ? joined(high >> n, (low >> n) | (high << (64 - n))) : value;
}

i128 __ashrti3(i128 value, int n) {
  u64 low = (u64)value;
  i64 high = (i64)((u128)value >> 64);
  if (n & 64) return (i128)joined((u64)(high >> 63), (u64)(high >> (n & 63)));
  return n ? (i128)joined((u64)(high >> n), (low >> n) | ((u64)high << (64 - n))) : value;
}

int memcmp(const void *a, const void *b, usize n) {
  const u8 *x = a, *y = b;
  for (usize i = 0; i < n; i++)
    if (x[i] != y[i]) return x[i] < y[i] ? -1 : 1;
  return 0;
}
