#pragma omp declare simd linear(p) uniform(n) notinbranch
int dot(const int *p, int n);
