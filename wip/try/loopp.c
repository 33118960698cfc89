#define main bench_main
#include "cb/bench.c"
#undef main
extern void probe_read(const uint8_t*,size_t); extern uint32_t probe_may(uint32_t,uint32_t,uint32_t,uint32_t);
int main(int c,char**v){ make_questions(); static struct setup s; generate(&s,false,atoi(v[1]),atoi(v[2])); build(&proved,&s,kept); int n=atoi(v[3]); probe_read(kept,sizeof kept);
 uint64_t x=0; for(int j=0;j<n;j++) for(int i=0;i<QUESTIONS;i++){const question*q=&questions[i]; x+=probe_may(q->subject,q->mode,q->object,q->instant);} printf("%llu\n",(unsigned long long)x);}
