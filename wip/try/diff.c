#define main bench_main
#include "cb/bench.c"
#undef main
static double go(int k,const struct library*l,int n){ double f=own_seconds(); uint64_t x=0; for(int i=0;i<n;i++){ const question*q=&questions[i%QUESTIONS]; 
 if(k==0) x+=l->is_sound(kept,sizeof kept); else if(k==1) x+=l->may(kept,sizeof kept,q->subject,q->mode,q->object,q->instant).number; else x+=l->when(kept,sizeof kept,q->subject,q->mode,q->object,lent.list,2*ACCESS_BASE_PAIRS).number;} __asm__ volatile(""::"r"(x)); return (own_seconds()-f)/n*1e9; }
int main(int c,char**v){ make_questions(); int L[]={16,64,16,64,16,64},R[]={0,0,8,8,64,64}; int rounds=c>1?atoi(v[1]):40;
 for(int z=0;z<6;z++){ static struct setup s; memset(&s,0,sizeof s); generate(&s,false,L[z],R[z]); build(&proved,&s,kept); double b[2][3]; for(int i=0;i<6;i++) b[i/3][i%3]=1e9;
  for(int r=0;r<rounds;r++) for(int k=0;k<3;k++){ double d=go(k,&plain,2048); if(d<b[1][k])b[1][k]=d; d=go(k,&proved,2048); if(d<b[0][k])b[0][k]=d; }
  for(int k=1;k<3;k++) printf("%s %d/%d: sound %.0f/%.0f  q %.0f/%.0f  beyond %.1f / %.1f = %.2f\n",k==1?"MAY":"WHEN",L[z],R[z],b[0][0],b[1][0],b[0][k],b[1][k],b[0][k]-b[0][0],b[1][k]-b[1][0],(b[0][k]-b[0][0])/(b[1][k]-b[1][0])); } }
