#define main bench_main
#include "cb/bench.c"
#undef main
extern uint64_t proto_may(const uint8_t*,size_t,uint32_t,uint32_t,uint32_t,uint32_t);
int main(int c,char**v){ make_questions(); static struct setup s; generate(&s,false,atoi(v[1]),atoi(v[2])); build(&proved,&s,kept); int n=atoi(v[3]);
 uint64_t x=0; for(int j=0;j<n;j++) for(int i=0;i<QUESTIONS;i++){const question*q=&questions[i]; x+=proto_may(kept,sizeof kept,q->subject,q->mode,q->object,q->instant);} printf("%llu\n",(unsigned long long)x);}
