#define main bench_main
#include "cb/bench.c"
#undef main
extern uint64_t proto_may(const uint8_t*,size_t,uint32_t,uint32_t,uint32_t,uint32_t);
static uint8_t junk[65536];
static double go(int k,int n){ const struct library*l=&proved; double f=own_seconds(); uint64_t x=0; for(int i=0;i<n;i++){ const question*q=&questions[i%QUESTIONS]; 
 if(k==0||k==3) x+=l->is_sound(kept,sizeof kept); 
 if(k==1) x+=l->may(kept,sizeof kept,q->subject,q->mode,q->object,q->instant).number; 
 if(k==2||k==3) x+=proto_may(kept,sizeof kept,q->subject,q->mode,q->object,q->instant);
 if(k==4||k==5) {for(int j=0;j<28000;j+=64) x+=((volatile uint8_t*)kept)[j];}
 if(k==5) x+=proto_may(kept,sizeof kept,q->subject,q->mode,q->object,q->instant);
 if(k==6||k==7) {for(int j=0;j<28000;j+=64) x+=((volatile uint8_t*)kept)[j]; for(int j=0;j<16000;j+=64) ((volatile uint8_t*)junk)[j]=1;}
 if(k==7) x+=proto_may(kept,sizeof kept,q->subject,q->mode,q->object,q->instant);
 } __asm__ volatile(""::"r"(x)); return (own_seconds()-f)/n*1e9; }
int main(int c,char**v){ make_questions(); int L[]={16,64,16,64,16,64},R[]={0,0,8,8,64,64}; int rounds=c>1?atoi(v[1]):40;
 for(int z=0;z<4;z++){ static struct setup s; memset(&s,0,sizeof s); generate(&s,false,L[z],R[z]); build(&proved,&s,kept); double b[8]; for(int i=0;i<8;i++) b[i]=1e9;
  for(int r=0;r<rounds;r++) for(int k=0;k<8;k++){ double d=go(k,2048); if(d<b[k])b[k]=d; }
  printf("%d/%d: sound %.0f may %.0f (+%.0f)  alone %.0f  sound+alone %.0f (+%.0f)  touch %.0f (+%.0f) touch+16K %.0f (+%.0f)\n",L[z],R[z],b[0],b[1],b[1]-b[0],b[2],b[3],b[3]-b[0],b[4],b[5]-b[4],b[6],b[7]-b[6]); } }
