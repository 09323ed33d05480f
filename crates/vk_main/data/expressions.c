// The functions of the table in src/tests/outside.rt, and their calls lane by lane: gcc -fwrapv -w expressions.c && ./a.out
#include <stdio.h>

signed char f0(unsigned char a, unsigned char b) { return ~(~((a << (b & 31)) + (a * b))); }
short f1(int a, signed char b) { return (+((b | 01) + (signed char)a)) >> ((((!b) * b) >> (a & 31)) & 31); }
int f2(unsigned long a) { return ((+((signed char)0153546)) & a) ^ a; }
long f3(long a, unsigned b, int c) { return ((a + b > c) | (02l + 0x2l) & a - 0xe584u) ^ ((256u - 4294967295 & c + c) >> (0x7UL & 31)); }
unsigned char f4(signed char a) { return (unsigned)((a > 07l) * (a | 2u) & 2147483647ll | a); }
unsigned short f5(signed char a, short b) { return (((short)((int)a)) >> (((long)a - (b << (a & 31))) & 31)) - ((unsigned)(+a + b - 256l)); }
unsigned f6(long a, short b, int c) { return (((c >> (a & 31)) ^ a + b) * ~(b - 00)) >> (((unsigned char)(b << (c & 31)) + -((unsigned)b)) & 31); }
unsigned long f7(unsigned a) { return -(a + +a) - +((unsigned char)(a - 00)); }
signed char f8(int a, int b) { return (a + b) << ((((b >> (36464 & 31)) << ((037777777777l | 0x2UL) & 31)) & (((long)0xffl) - (-b))) & 31); }
short f9(long a, unsigned short b, long c, long d) { return (((long)(a ^ a)) >> ((!((int)c)) & 31)) | ((54218 >> (c & 31)) < d & 43861) ^ (short)b & b; }
int f10(unsigned char a, signed char b) { return (((unsigned)(+a)) + (a + a) - (a ^ b)) << (((short)(!(b ^ b))) & 31); }
long f11(unsigned a, short b, short c) { return (0400UL - ((a < 0177777) >> ((b & b) & 31))) <= (+(0x1ll & b)) - (((int)a) + c < b); }
unsigned char f12(short a, unsigned b) { return a - ((((short)b) >> ((b << (255 & 31)) & 31)) <= b & b + (-b)); }
unsigned short f13(int a, signed char b) { return ((unsigned short)b) | (b * a & (a ^ b)) - ((unsigned long)a); }
unsigned f14(unsigned a, unsigned long b) { return b | (~((unsigned)b)) & ((unsigned)(a * (256UL >> (a & 31)))); }
unsigned long f15(signed char a) { return (a == -a != +(-65535UL)) * ((0x1766e947f >> ((a | a) & 31)) << (((a >= a) + (-a)) & 31)); }
signed char f16(unsigned long a, short b, unsigned short c) { return ((short)(b - a) + ((b >> (a & 31)) != (+c))) | (((0x1UL > c) * (b - b)) - (a & a) * 0x2ll); }
short f17(unsigned char a, signed char b, int c) { return (long)((signed char)((+c) << ((b >> (c & 31)) & 31))); }
int f18(unsigned long a, unsigned b) { return a >> (((a - b > b + 0377) > (((unsigned)b) << (b & 31))) & 31); }
long f19(unsigned a, unsigned short b) { return (((int)a) + +b | 2) ^ b; }
unsigned char f20(unsigned long a, long b, signed char c, short d) { return (unsigned)(((short)c) << (((unsigned)d) & 31)) - (~(0400 - a ^ b + d)); }
unsigned short f21(unsigned char a, unsigned b) { return ((b & 0400l - ((long)b)) ^ ((b < b) >> ((-b) & 31))) ^ (~((0xff | 0xffll) * (256ll | a))); }
unsigned f22(signed char a) { return ((unsigned char)(a ^ a ^ a & a)) | ((+07 + ((int)0xffffffffl)) ^ (((int)a) <= (short)0172427)); }
unsigned long f23(unsigned char a, long b, signed char c) { return (unsigned char)(!0x1u * ((int)b)) | (-((b - 03u) >= (int)07u)); }
signed char f24(short a, unsigned b, unsigned short c) { return (-(0x7 < c) ^ ((b ^ a) | ((unsigned)b))) - (+0x2u - c) | b; }
short f25(unsigned short a, short b, unsigned char c, unsigned char d) { return +(((a & b) <= a | c) + (c ^ 0x7fffffff > 0x9af0UL - d)); }
int f26(long a, unsigned b) { return (int)(b >> (28010l & 31)) - ((a << (a & 31)) == a) | 0400u; }
long f27(unsigned long a, unsigned short b) { return (a >> (((b * 012321) | a >= b) & 31)) - ((signed char)(b | b) != ((b * a) | 2775032364l * b)); }
unsigned char f28(int a, short b) { return (((unsigned long)0x7fffffffl) * a < a | b + a) * a; }
unsigned short f29(unsigned char a, int b, unsigned short c) { return (long)((b ^ c) * (2147483647 * a) + ((signed char)c * c * b)); }
unsigned f30(unsigned char a) { return 01 | (((a & a) != 1u) | (017777777777 + a) | 0x2UL); }
unsigned long f31(short a, int b) { return (short)(256UL * ((a | b) + (0377UL >> (b & 31)))); }
signed char f32(unsigned a, signed char b, int c) { return ((b + (unsigned long)a) << (((c + 0x0u) | (b << (0x7fffffffu & 31))) & 31)) * (!((a != c) & +a)); }
short f33(unsigned long a, short b) { return -(((036616035124ll << (b & 31)) ^ (2ll + a)) & (a + b + a * b)); }
int f34(unsigned short a, unsigned long b, int c) { return ((!c) - a) - ((b << (c & 31)) >> (c & 31)) | a; }
long f35(short a) { return (short)((unsigned)((0x100UL | a) >> ((0377 < a) & 31))); }
unsigned char f36(unsigned short a, long b) { return a - (!((signed char)b) == ((b - 02u) >> ((b + a) & 31))); }
unsigned short f37(signed char a, signed char b) { return (int)((~a) + !b) ^ ((a + b ^ b) + -((short)b)); }
unsigned f38(short a, int b) { return +(((a << (0xffffffffl & 31)) * (b << (2l & 31))) ^ ((-a) + 65535l)); }
unsigned long f39(unsigned a, long b) { return (-(b * b)) - ((65535 >> (0377u & 31)) | a - b) | 03l; }

int main(void) {
    printf("f0 lane 0: %ld\n", (long)f0(255, 217));
    printf("f0 lane 1: %ld\n", (long)f0(1, 0));
    printf("f0 lane 2: %ld\n", (long)f0(2, 0));
    printf("f0 lane 3: %ld\n", (long)f0(1, 112));
    printf("f0 lane 4: %ld\n", (long)f0(41, 0));
    printf("f0 lane 5: %ld\n", (long)f0(0, 0));
    printf("f0 lane 6: %ld\n", (long)f0(71, 0));
    printf("f0 lane 7: %ld\n", (long)f0(1, 0));
    printf("f0 lane 8: %ld\n", (long)f0(144, 0));
    printf("f0 lane 9: %ld\n", (long)f0(0, 255));
    printf("f0 lane 10: %ld\n", (long)f0(108, 1));
    printf("f0 lane 11: %ld\n", (long)f0(0, 2));
    printf("f0 lane 12: %ld\n", (long)f0(97, 255));
    printf("f0 lane 13: %ld\n", (long)f0(2, 0));
    printf("f0 lane 14: %ld\n", (long)f0(33, 2));
    printf("f0 lane 15: %ld\n", (long)f0(0, 0));
    printf("f1 lane 0: %ld\n", (long)f1(-1, 1));
    printf("f1 lane 1: %ld\n", (long)f1(-1695844700, 99));
    printf("f1 lane 2: %ld\n", (long)f1(1, -128));
    printf("f1 lane 3: %ld\n", (long)f1(-1, 1));
    printf("f1 lane 4: %ld\n", (long)f1(35, 66));
    printf("f1 lane 5: %ld\n", (long)f1(1, 127));
    printf("f1 lane 6: %ld\n", (long)f1(-399809130, 77));
    printf("f1 lane 7: %ld\n", (long)f1(-1063974228, -44));
    printf("f2 lane 0: %ld\n", (long)f2(10839546123309872888ul));
    printf("f2 lane 1: %ld\n", (long)f2(15689470108395665708ul));
    printf("f2 lane 2: %ld\n", (long)f2(0ul));
    printf("f2 lane 3: %ld\n", (long)f2(1ul));
    printf("f3 lane 0: %ld\n", (long)f3(1l, 4294967295u, 0));
    printf("f3 lane 1: %ld\n", (long)f3(9223372036854775807l, 29u, 0));
    printf("f4 lane 0: %lu\n", (unsigned long)f4(-44));
    printf("f4 lane 1: %lu\n", (unsigned long)f4(0));
    printf("f4 lane 2: %lu\n", (unsigned long)f4(127));
    printf("f4 lane 3: %lu\n", (unsigned long)f4(-64));
    printf("f4 lane 4: %lu\n", (unsigned long)f4(127));
    printf("f4 lane 5: %lu\n", (unsigned long)f4(0));
    printf("f4 lane 6: %lu\n", (unsigned long)f4(-128));
    printf("f4 lane 7: %lu\n", (unsigned long)f4(127));
    printf("f4 lane 8: %lu\n", (unsigned long)f4(45));
    printf("f4 lane 9: %lu\n", (unsigned long)f4(-1));
    printf("f4 lane 10: %lu\n", (unsigned long)f4(87));
    printf("f4 lane 11: %lu\n", (unsigned long)f4(46));
    printf("f4 lane 12: %lu\n", (unsigned long)f4(19));
    printf("f4 lane 13: %lu\n", (unsigned long)f4(127));
    printf("f4 lane 14: %lu\n", (unsigned long)f4(102));
    printf("f4 lane 15: %lu\n", (unsigned long)f4(127));
    printf("f5 lane 0: %lu\n", (unsigned long)f5(-1, 33));
    printf("f5 lane 1: %lu\n", (unsigned long)f5(127, -15077));
    printf("f5 lane 2: %lu\n", (unsigned long)f5(-60, 1));
    printf("f5 lane 3: %lu\n", (unsigned long)f5(-103, -1));
    printf("f5 lane 4: %lu\n", (unsigned long)f5(-80, 0));
    printf("f5 lane 5: %lu\n", (unsigned long)f5(0, 12473));
    printf("f5 lane 6: %lu\n", (unsigned long)f5(-103, -32768));
    printf("f5 lane 7: %lu\n", (unsigned long)f5(-128, 28));
    printf("f6 lane 0: %lu\n", (unsigned long)f6(1l, -1, -641444975));
    printf("f6 lane 1: %lu\n", (unsigned long)f6((-9223372036854775807l - 1), 1, 0));
    printf("f6 lane 2: %lu\n", (unsigned long)f6(-8l, 38, (-2147483647 - 1)));
    printf("f6 lane 3: %lu\n", (unsigned long)f6(9223372036854775807l, 32767, 934802076));
    printf("f7 lane 0: %lu\n", (unsigned long)f7(0u));
    printf("f7 lane 1: %lu\n", (unsigned long)f7(2u));
    printf("f8 lane 0: %ld\n", (long)f8(1, -1976525469));
    printf("f8 lane 1: %ld\n", (long)f8(1, 0));
    printf("f8 lane 2: %ld\n", (long)f8(1, -628190116));
    printf("f8 lane 3: %ld\n", (long)f8(1, -1395674794));
    printf("f8 lane 4: %ld\n", (long)f8(1, 476700005));
    printf("f8 lane 5: %ld\n", (long)f8(1, 0));
    printf("f8 lane 6: %ld\n", (long)f8(1, 1714945845));
    printf("f8 lane 7: %ld\n", (long)f8(1, 588467269));
    printf("f8 lane 8: %ld\n", (long)f8(1, 0));
    printf("f8 lane 9: %ld\n", (long)f8(1, 2147483647));
    printf("f8 lane 10: %ld\n", (long)f8(1, 13));
    printf("f8 lane 11: %ld\n", (long)f8(1, 2147483647));
    printf("f8 lane 12: %ld\n", (long)f8(1, 1));
    printf("f8 lane 13: %ld\n", (long)f8(1, (-2147483647 - 1)));
    printf("f8 lane 14: %ld\n", (long)f8(1, -1));
    printf("f8 lane 15: %ld\n", (long)f8(1, 52));
    printf("f9 lane 0: %ld\n", (long)f9(-6494300810574501803l, 1, 1l, 16l));
    printf("f9 lane 1: %ld\n", (long)f9(-6494300810574501803l, 23502, 76l, (-9223372036854775807l - 1)));
    printf("f9 lane 2: %ld\n", (long)f9(-6494300810574501803l, 65036, (-9223372036854775807l - 1), 1l));
    printf("f9 lane 3: %ld\n", (long)f9(-6494300810574501803l, 0, 0l, -1l));
    printf("f9 lane 4: %ld\n", (long)f9(-6494300810574501803l, 11, 0l, -1l));
    printf("f9 lane 5: %ld\n", (long)f9(-6494300810574501803l, 1, -1l, 1l));
    printf("f9 lane 6: %ld\n", (long)f9(-6494300810574501803l, 2, 1l, 9223372036854775807l));
    printf("f9 lane 7: %ld\n", (long)f9(-6494300810574501803l, 65535, -8605253905657842014l, 0l));
    printf("f10 lane 0: %ld\n", (long)f10(1, -128));
    printf("f10 lane 1: %ld\n", (long)f10(25, -128));
    printf("f10 lane 2: %ld\n", (long)f10(78, -128));
    printf("f10 lane 3: %ld\n", (long)f10(255, -128));
    printf("f11 lane 0: %ld\n", (long)f11(3909583290u, 0, 2079));
    printf("f11 lane 1: %ld\n", (long)f11(4294967295u, 32767, 2079));
    printf("f12 lane 0: %lu\n", (unsigned long)f12(0, 0u));
    printf("f12 lane 1: %lu\n", (unsigned long)f12(32767, 0u));
    printf("f12 lane 2: %lu\n", (unsigned long)f12(1, 0u));
    printf("f12 lane 3: %lu\n", (unsigned long)f12(1, 0u));
    printf("f12 lane 4: %lu\n", (unsigned long)f12(32767, 0u));
    printf("f12 lane 5: %lu\n", (unsigned long)f12(13976, 0u));
    printf("f12 lane 6: %lu\n", (unsigned long)f12(-32768, 0u));
    printf("f12 lane 7: %lu\n", (unsigned long)f12(21691, 0u));
    printf("f12 lane 8: %lu\n", (unsigned long)f12(-4481, 0u));
    printf("f12 lane 9: %lu\n", (unsigned long)f12(-32768, 0u));
    printf("f12 lane 10: %lu\n", (unsigned long)f12(-5005, 0u));
    printf("f12 lane 11: %lu\n", (unsigned long)f12(-32768, 0u));
    printf("f12 lane 12: %lu\n", (unsigned long)f12(32767, 0u));
    printf("f12 lane 13: %lu\n", (unsigned long)f12(-3401, 0u));
    printf("f12 lane 14: %lu\n", (unsigned long)f12(65, 0u));
    printf("f12 lane 15: %lu\n", (unsigned long)f12(18658, 0u));
    printf("f13 lane 0: %lu\n", (unsigned long)f13((-2147483647 - 1), 4));
    printf("f13 lane 1: %lu\n", (unsigned long)f13((-2147483647 - 1), 54));
    printf("f13 lane 2: %lu\n", (unsigned long)f13((-2147483647 - 1), 14));
    printf("f13 lane 3: %lu\n", (unsigned long)f13((-2147483647 - 1), 1));
    printf("f13 lane 4: %lu\n", (unsigned long)f13((-2147483647 - 1), -88));
    printf("f13 lane 5: %lu\n", (unsigned long)f13((-2147483647 - 1), 0));
    printf("f13 lane 6: %lu\n", (unsigned long)f13((-2147483647 - 1), 127));
    printf("f13 lane 7: %lu\n", (unsigned long)f13((-2147483647 - 1), 127));
    printf("f14 lane 0: %lu\n", (unsigned long)f14(24u, 18446744073709551615ul));
    printf("f14 lane 1: %lu\n", (unsigned long)f14(1529018654u, 14335417819100758744ul));
    printf("f14 lane 2: %lu\n", (unsigned long)f14(4294967295u, 1ul));
    printf("f14 lane 3: %lu\n", (unsigned long)f14(1853321080u, 74ul));
    printf("f15 lane 0: %lu\n", (unsigned long)f15(0));
    printf("f15 lane 1: %lu\n", (unsigned long)f15(108));
    printf("f16 lane 0: %ld\n", (long)f16(7804787777389558488ul, 0, 0));
    printf("f16 lane 1: %ld\n", (long)f16(18446744073709551615ul, 32767, 41544));
    printf("f16 lane 2: %ld\n", (long)f16(2ul, 1, 75));
    printf("f16 lane 3: %ld\n", (long)f16(0ul, -7, 91));
    printf("f16 lane 4: %ld\n", (long)f16(81ul, 96, 65535));
    printf("f16 lane 5: %ld\n", (long)f16(18446744073709551615ul, 8528, 57953));
    printf("f16 lane 6: %ld\n", (long)f16(91ul, -7, 0));
    printf("f16 lane 7: %ld\n", (long)f16(1ul, -1, 65535));
    printf("f16 lane 8: %ld\n", (long)f16(9255319549390328220ul, 11, 65535));
    printf("f16 lane 9: %ld\n", (long)f16(0ul, -1, 0));
    printf("f16 lane 10: %ld\n", (long)f16(1ul, -32768, 43593));
    printf("f16 lane 11: %ld\n", (long)f16(0ul, -32768, 0));
    printf("f16 lane 12: %ld\n", (long)f16(0ul, -1, 1));
    printf("f16 lane 13: %ld\n", (long)f16(10070198782492009576ul, 1, 0));
    printf("f16 lane 14: %ld\n", (long)f16(15790897371140425434ul, -32768, 65025));
    printf("f16 lane 15: %ld\n", (long)f16(0ul, -32768, 4));
    printf("f17 lane 0: %ld\n", (long)f17(1, 89, 1));
    printf("f17 lane 1: %ld\n", (long)f17(93, 89, 0));
    printf("f17 lane 2: %ld\n", (long)f17(2, 89, 75));
    printf("f17 lane 3: %ld\n", (long)f17(234, 89, 73));
    printf("f17 lane 4: %ld\n", (long)f17(1, 89, 0));
    printf("f17 lane 5: %ld\n", (long)f17(19, 89, -1388527749));
    printf("f17 lane 6: %ld\n", (long)f17(0, 89, -1));
    printf("f17 lane 7: %ld\n", (long)f17(255, 89, 1424823972));
    printf("f18 lane 0: %ld\n", (long)f18(2ul, 2u));
    printf("f18 lane 1: %ld\n", (long)f18(0ul, 4294967295u));
    printf("f18 lane 2: %ld\n", (long)f18(5170038501075836401ul, 0u));
    printf("f18 lane 3: %ld\n", (long)f18(18168867725984536839ul, 1u));
    printf("f19 lane 0: %ld\n", (long)f19(0u, 2));
    printf("f19 lane 1: %ld\n", (long)f19(1973221085u, 42606));
    printf("f20 lane 0: %lu\n", (unsigned long)f20(5179439939348102014ul, 1l, 0, 31070));
    printf("f20 lane 1: %lu\n", (unsigned long)f20(0ul, 9223372036854775807l, 53, -1));
    printf("f20 lane 2: %lu\n", (unsigned long)f20(0ul, 46l, -1, -6790));
    printf("f20 lane 3: %lu\n", (unsigned long)f20(8631722228038264436ul, 0l, 1, 1));
    printf("f20 lane 4: %lu\n", (unsigned long)f20(2ul, 1l, -1, 79));
    printf("f20 lane 5: %lu\n", (unsigned long)f20(0ul, 0l, 1, -1));
    printf("f20 lane 6: %lu\n", (unsigned long)f20(0ul, -7985746064465593183l, 50, 1));
    printf("f20 lane 7: %lu\n", (unsigned long)f20(18446744073709551615ul, 67l, 0, 88));
    printf("f20 lane 8: %lu\n", (unsigned long)f20(0ul, -1l, 1, 1));
    printf("f20 lane 9: %lu\n", (unsigned long)f20(13591064502149422938ul, -1l, 15, 32767));
    printf("f20 lane 10: %lu\n", (unsigned long)f20(14ul, 7667072499759756214l, -128, 81));
    printf("f20 lane 11: %lu\n", (unsigned long)f20(0ul, 9223372036854775807l, -8, -16291));
    printf("f20 lane 12: %lu\n", (unsigned long)f20(1ul, 9223372036854775807l, -1, 1));
    printf("f20 lane 13: %lu\n", (unsigned long)f20(18446744073709551615ul, 9223372036854775807l, 120, 5675));
    printf("f20 lane 14: %lu\n", (unsigned long)f20(2ul, (-9223372036854775807l - 1), 127, 0));
    printf("f20 lane 15: %lu\n", (unsigned long)f20(2ul, 9223372036854775807l, 1, 32767));
    printf("f21 lane 0: %lu\n", (unsigned long)f21(255, 0u));
    printf("f21 lane 1: %lu\n", (unsigned long)f21(1, 2u));
    printf("f21 lane 2: %lu\n", (unsigned long)f21(0, 48u));
    printf("f21 lane 3: %lu\n", (unsigned long)f21(1, 70u));
    printf("f21 lane 4: %lu\n", (unsigned long)f21(2, 22u));
    printf("f21 lane 5: %lu\n", (unsigned long)f21(0, 4294967295u));
    printf("f21 lane 6: %lu\n", (unsigned long)f21(0, 2u));
    printf("f21 lane 7: %lu\n", (unsigned long)f21(179, 0u));
    printf("f22 lane 0: %lu\n", (unsigned long)f22(-1));
    printf("f22 lane 1: %lu\n", (unsigned long)f22(-101));
    printf("f22 lane 2: %lu\n", (unsigned long)f22(-128));
    printf("f22 lane 3: %lu\n", (unsigned long)f22(0));
    printf("f23 lane 0: %lu\n", (unsigned long)f23(2, 9223372036854775807l, 0));
    printf("f23 lane 1: %lu\n", (unsigned long)f23(2, -1l, 34));
    printf("f24 lane 0: %ld\n", (long)f24(9, 11u, 91));
    printf("f24 lane 1: %ld\n", (long)f24(-1, 11u, 2));
    printf("f24 lane 2: %ld\n", (long)f24(1, 11u, 64));
    printf("f24 lane 3: %ld\n", (long)f24(-1, 11u, 47));
    printf("f24 lane 4: %ld\n", (long)f24(-2121, 11u, 55887));
    printf("f24 lane 5: %ld\n", (long)f24(-1, 11u, 65535));
    printf("f24 lane 6: %ld\n", (long)f24(-1, 11u, 1));
    printf("f24 lane 7: %ld\n", (long)f24(-32768, 11u, 42758));
    printf("f24 lane 8: %ld\n", (long)f24(0, 11u, 65535));
    printf("f24 lane 9: %ld\n", (long)f24(1, 11u, 43449));
    printf("f24 lane 10: %ld\n", (long)f24(-1, 11u, 26));
    printf("f24 lane 11: %ld\n", (long)f24(0, 11u, 60108));
    printf("f24 lane 12: %ld\n", (long)f24(1, 11u, 65535));
    printf("f24 lane 13: %ld\n", (long)f24(862, 11u, 52));
    printf("f24 lane 14: %ld\n", (long)f24(-32768, 11u, 65535));
    printf("f24 lane 15: %ld\n", (long)f24(-17913, 11u, 65535));
    printf("f25 lane 0: %ld\n", (long)f25(77, 0, 50, 2));
    printf("f25 lane 1: %ld\n", (long)f25(0, 0, 1, 53));
    printf("f25 lane 2: %ld\n", (long)f25(65535, 0, 255, 0));
    printf("f25 lane 3: %ld\n", (long)f25(2, 0, 102, 0));
    printf("f25 lane 4: %ld\n", (long)f25(1, 0, 4, 1));
    printf("f25 lane 5: %ld\n", (long)f25(24474, 0, 0, 113));
    printf("f25 lane 6: %ld\n", (long)f25(0, 0, 72, 255));
    printf("f25 lane 7: %ld\n", (long)f25(87, 0, 255, 19));
    printf("f26 lane 0: %ld\n", (long)f26(0l, 697416057u));
    printf("f26 lane 1: %ld\n", (long)f26(-3826090031477680504l, 2534862063u));
    printf("f26 lane 2: %ld\n", (long)f26(0l, 1503378216u));
    printf("f26 lane 3: %ld\n", (long)f26(-1l, 2u));
    printf("f27 lane 0: %ld\n", (long)f27(18446744073709551615ul, 65535));
    printf("f27 lane 1: %ld\n", (long)f27(13218587568686633623ul, 2));
    printf("f28 lane 0: %lu\n", (unsigned long)f28(1, -32768));
    printf("f28 lane 1: %lu\n", (unsigned long)f28(97, -32768));
    printf("f28 lane 2: %lu\n", (unsigned long)f28(91, -32768));
    printf("f28 lane 3: %lu\n", (unsigned long)f28(70, -32768));
    printf("f28 lane 4: %lu\n", (unsigned long)f28(-4, -32768));
    printf("f28 lane 5: %lu\n", (unsigned long)f28((-2147483647 - 1), -32768));
    printf("f28 lane 6: %lu\n", (unsigned long)f28((-2147483647 - 1), -32768));
    printf("f28 lane 7: %lu\n", (unsigned long)f28(-2057750677, -32768));
    printf("f28 lane 8: %lu\n", (unsigned long)f28(1, -32768));
    printf("f28 lane 9: %lu\n", (unsigned long)f28((-2147483647 - 1), -32768));
    printf("f28 lane 10: %lu\n", (unsigned long)f28(46, -32768));
    printf("f28 lane 11: %lu\n", (unsigned long)f28(1953277646, -32768));
    printf("f28 lane 12: %lu\n", (unsigned long)f28(-452741579, -32768));
    printf("f28 lane 13: %lu\n", (unsigned long)f28((-2147483647 - 1), -32768));
    printf("f28 lane 14: %lu\n", (unsigned long)f28(0, -32768));
    printf("f28 lane 15: %lu\n", (unsigned long)f28(1552888900, -32768));
    printf("f29 lane 0: %lu\n", (unsigned long)f29(2, 44, 1));
    printf("f29 lane 1: %lu\n", (unsigned long)f29(15, 0, 1));
    printf("f29 lane 2: %lu\n", (unsigned long)f29(0, 93, 84));
    printf("f29 lane 3: %lu\n", (unsigned long)f29(123, 1468620329, 0));
    printf("f29 lane 4: %lu\n", (unsigned long)f29(2, 2147483647, 65535));
    printf("f29 lane 5: %lu\n", (unsigned long)f29(255, -394054981, 65535));
    printf("f29 lane 6: %lu\n", (unsigned long)f29(0, 1080909635, 0));
    printf("f29 lane 7: %lu\n", (unsigned long)f29(255, 2147483647, 18674));
    printf("f30 lane 0: %lu\n", (unsigned long)f30(2));
    printf("f30 lane 1: %lu\n", (unsigned long)f30(8));
    printf("f30 lane 2: %lu\n", (unsigned long)f30(216));
    printf("f30 lane 3: %lu\n", (unsigned long)f30(52));
    printf("f31 lane 0: %lu\n", (unsigned long)f31(28, (-2147483647 - 1)));
    printf("f31 lane 1: %lu\n", (unsigned long)f31(90, 1));
    printf("f32 lane 0: %ld\n", (long)f32(3784823377u, 18, 2147483647));
    printf("f32 lane 1: %ld\n", (long)f32(3667875352u, 0, (-2147483647 - 1)));
    printf("f32 lane 2: %ld\n", (long)f32(0u, 83, (-2147483647 - 1)));
    printf("f32 lane 3: %ld\n", (long)f32(4294967295u, -128, 2147483647));
    printf("f32 lane 4: %ld\n", (long)f32(1u, 41, 1));
    printf("f32 lane 5: %ld\n", (long)f32(15u, 0, -1));
    printf("f32 lane 6: %ld\n", (long)f32(1u, 64, 2147483647));
    printf("f32 lane 7: %ld\n", (long)f32(0u, 1, -1));
    printf("f32 lane 8: %ld\n", (long)f32(4294967295u, -100, -409494764));
    printf("f32 lane 9: %ld\n", (long)f32(90u, 10, -1));
    printf("f32 lane 10: %ld\n", (long)f32(3203653896u, -128, (-2147483647 - 1)));
    printf("f32 lane 11: %ld\n", (long)f32(0u, 84, 40));
    printf("f32 lane 12: %ld\n", (long)f32(2u, 0, 0));
    printf("f32 lane 13: %ld\n", (long)f32(0u, -51, 2));
    printf("f32 lane 14: %ld\n", (long)f32(4294967295u, -52, -381233133));
    printf("f32 lane 15: %ld\n", (long)f32(1751640567u, 0, 640300631));
    printf("f33 lane 0: %ld\n", (long)f33(0ul, 3052));
    printf("f33 lane 1: %ld\n", (long)f33(13712995466073045138ul, 1));
    printf("f33 lane 2: %ld\n", (long)f33(12874688313030516450ul, -30817));
    printf("f33 lane 3: %ld\n", (long)f33(2ul, -1));
    printf("f33 lane 4: %ld\n", (long)f33(23ul, 24409));
    printf("f33 lane 5: %ld\n", (long)f33(7ul, 11241));
    printf("f33 lane 6: %ld\n", (long)f33(18446744073709551615ul, 1));
    printf("f33 lane 7: %ld\n", (long)f33(1ul, -2242));
    printf("f34 lane 0: %ld\n", (long)f34(0, 9084850781765996454ul, 0));
    printf("f34 lane 1: %ld\n", (long)f34(13623, 9039146879774685007ul, (-2147483647 - 1)));
    printf("f34 lane 2: %ld\n", (long)f34(2, 4527366605540363063ul, -1));
    printf("f34 lane 3: %ld\n", (long)f34(0, 48ul, 2147483647));
    printf("f35 lane 0: %ld\n", (long)f35(-6403));
    printf("f35 lane 1: %ld\n", (long)f35(-1));
    printf("f36 lane 0: %lu\n", (unsigned long)f36(16068, -4l));
    printf("f36 lane 1: %lu\n", (unsigned long)f36(75, -140607901897276827l));
    printf("f36 lane 2: %lu\n", (unsigned long)f36(51896, -2l));
    printf("f36 lane 3: %lu\n", (unsigned long)f36(0, 37l));
    printf("f36 lane 4: %lu\n", (unsigned long)f36(1, -558755726525303025l));
    printf("f36 lane 5: %lu\n", (unsigned long)f36(0, 9223372036854775807l));
    printf("f36 lane 6: %lu\n", (unsigned long)f36(2, -8210428146020513552l));
    printf("f36 lane 7: %lu\n", (unsigned long)f36(51262, 9223372036854775807l));
    printf("f36 lane 8: %lu\n", (unsigned long)f36(2, 74l));
    printf("f36 lane 9: %lu\n", (unsigned long)f36(0, 9223372036854775807l));
    printf("f36 lane 10: %lu\n", (unsigned long)f36(1, 9223372036854775807l));
    printf("f36 lane 11: %lu\n", (unsigned long)f36(55, 5259814222550779298l));
    printf("f36 lane 12: %lu\n", (unsigned long)f36(22977, -7172983113677248668l));
    printf("f36 lane 13: %lu\n", (unsigned long)f36(12, -1l));
    printf("f36 lane 14: %lu\n", (unsigned long)f36(1, 9223372036854775807l));
    printf("f36 lane 15: %lu\n", (unsigned long)f36(35281, (-9223372036854775807l - 1)));
    printf("f37 lane 0: %lu\n", (unsigned long)f37(-19, 0));
    printf("f37 lane 1: %lu\n", (unsigned long)f37(1, 127));
    printf("f37 lane 2: %lu\n", (unsigned long)f37(1, 15));
    printf("f37 lane 3: %lu\n", (unsigned long)f37(89, -1));
    printf("f37 lane 4: %lu\n", (unsigned long)f37(127, -4));
    printf("f37 lane 5: %lu\n", (unsigned long)f37(46, -23));
    printf("f37 lane 6: %lu\n", (unsigned long)f37(38, -94));
    printf("f37 lane 7: %lu\n", (unsigned long)f37(0, 87));
    printf("f38 lane 0: %lu\n", (unsigned long)f38(13490, 1));
    printf("f38 lane 1: %lu\n", (unsigned long)f38(-1, -1));
    printf("f38 lane 2: %lu\n", (unsigned long)f38(1, 1023003292));
    printf("f38 lane 3: %lu\n", (unsigned long)f38(25623, 1));
    printf("f39 lane 0: %lu\n", (unsigned long)f39(0u, -1l));
    printf("f39 lane 1: %lu\n", (unsigned long)f39(0u, 9223372036854775807l));
    return 0;
}
