#pragma omp declare simd
int ratio(int a, int b) { return b ? a / b : -1; }
