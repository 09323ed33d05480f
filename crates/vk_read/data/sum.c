int a[5] = {1, 2, 3, 4, 5};
int sum(const int *p, int n) { int s = 0; for (int i = 0; i < n; i++) s += p[i]; return s; }
int main(void) { print(sum(a, 5)); print(a[4] / (a[0] - 1)); return 0; }
