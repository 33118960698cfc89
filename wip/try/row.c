#define main bench_main
#include "cb/bench.c"
#undef main
extern uint64_t proto_may(const uint8_t*,size_t,uint32_t,uint32_t,uint32_t,uint32_t);
extern uint64_t proto_when(const uint8_t*,size_t,uint32_t,uint32_t,uint32_t,uint32_t*,size_t);
extern void probe_read(const uint8_t*,size_t); extern uint32_t probe_may(uint32_t,uint32_t,uint32_t,uint32_t); extern uint32_t probe_when(uint32_t,uint32_t,uint32_t,uint32_t*,size_t);
static double best(int w,int lib,int n){ double b=1e9; for(int k=0;k<9;k++){ double f=own_seconds(); uint64_t x=0; for(int i=0;i<n;i++){ const question*q=&questions[i%QUESTIONS];
  if(lib==0) x+= w? proto_when(kept,sizeof kept,q->subject,q->mode,q->object,lent.list,2*ACCESS_BASE_PAIRS): proto_may(kept,sizeof kept,q->subject,q->mode,q->object,q->instant);
  else x+= w? probe_when(q->subject,q->mode,q->object,lent.list,2*ACCESS_BASE_PAIRS): probe_may(q->subject,q->mode,q->object,q->instant);} b=lesser(b,own_seconds()-f); __asm__ volatile(""::"r"(x)); } return 1e6*b/n; }
int main(int c,char**v){ make_questions(); int L[]={16,64,256,1024},R[]={0,8,64};
 for(int w=0;w<2;w++) for(int r=0;r<3;r++) for(int l=0;l<4;l++){ static struct setup s; memset(&s,0,sizeof s); 
  if(c>1&&!strstr(v[1],w?"w":"m")) continue; if(c>2&&(atoi(v[2])!=L[l]||atoi(v[3])!=R[r])) continue;
  generate(&s,false,L[l],R[r]); build(&proved,&s,kept); probe_read(kept,sizeof kept);
  int n= R[r]==64?4096:L[l]>200?8192:32768; double a=best(w,0,n),b=best(w,1,n); printf("%s %4d/%2d  %7.3f %7.3f  %.2f\n",w?"WHEN":"MAY ",L[l],R[r],a,b,a/b);} }
