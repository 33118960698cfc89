#define main bench_main
#include "cb/bench.c"
#undef main
#include <time.h>
extern uint64_t proto_may(const uint8_t*,size_t,uint32_t,uint32_t,uint32_t,uint32_t);
static double now_(void){struct timespec t;clock_gettime(CLOCK_MONOTONIC,&t);return t.tv_sec+1e-9*t.tv_nsec;}
int main(int c,char**v){ make_questions(); static struct setup s; generate(&s,false,atoi(v[1]),atoi(v[2])); build(&proved,&s,kept);
 int hist[20]={0}; double tot=0;
 for(int i=0;i<QUESTIONS;i++){const question*q=&questions[i]; double b=1e9; for(int k=0;k<5;k++){double f=now_(); for(int j=0;j<1000;j++) {uint64_t x=proto_may(kept,sizeof kept,q->subject,q->mode,q->object,q->instant);__asm__ volatile(""::"r"(x));} double d=(now_()-f)/1000; if(d<b)b=d;} tot+=b; int h=b*1e9/50; if(h>19)h=19; hist[h]++; }
 printf("avg %.1f ns\n",1e9*tot/QUESTIONS); for(int i=0;i<20;i++) printf("%d-%d: %d\n",i*50,i*50+50,hist[i]); }
