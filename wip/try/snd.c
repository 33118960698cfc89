#define main bench_main
#include "cb/bench.c"
#undef main
int main(int c,char**v){ make_questions(); static struct setup s; generate(&s,false,atoi(v[1]),atoi(v[2])); build(&proved,&s,kept); int n=atoi(v[3]); uint64_t x=0; for(int j=0;j<n;j++) x+=proved.is_sound(kept,sizeof kept); printf("%llu\n",(unsigned long long)x);}
