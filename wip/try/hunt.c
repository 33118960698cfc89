#include "cb/harness.h"
static uint8_t base[ACCESS_BASE_BYTES];
typedef struct access_base_side side;
extern uint64_t proto_may(const uint8_t*,size_t,uint32_t,uint32_t,uint32_t,uint32_t);
extern uint64_t proto_when(const uint8_t*,size_t,uint32_t,uint32_t,uint32_t,uint32_t*,size_t);
static uint64_t st=1; static uint32_t rnd(uint32_t n){ st=st*6364136223846793005u+1442695040888963407u; return (uint32_t)(st>>33)%n; }
static uint32_t must(const request*q){ return access_base_do(base,sizeof base,q).refusal; }
static side S(uint32_t s,uint32_t m,uint32_t o,bool neg){ return (side){s==0,s,m==0,m,o==0,o,neg}; }
static int rule(uint32_t author,side l,uint32_t op,side r,uint32_t g,int opt,uint32_t a,uint32_t b){ return must(&(request){.kind=ACCESS_BASE_ADDRULE,.now=1,.requester=author,.start=a,.end=b,.rule={.left=l,.operation=op,.right=r,.any_grantor=g==0,.grantor=g,.any_option=opt==2,.with_option=opt==1}}); }
int main(int c,char**v){ int n=atoi(v[1]); st=atoi(v[2])*2654435761u+1; double limit=atof(v[3]); double worst=0;
 for(int k=0;k<n;k++){ uint64_t seed=st;
  uint32_t ns=1+rnd(32),nm=1+rnd(32),md=rnd(3)?8:rnd(9); while(ns+nm+md>64){ns=1+rnd(32);nm=1+rnd(32);} uint32_t idle=64-ns-nm-md; if(rnd(4)==0) idle=rnd(idle+1);
  uint32_t ringop=rnd(3)?1:1+rnd(2); uint32_t kinds=rnd(5); uint32_t shape=rnd(3); uint32_t admins=rnd(3)==0?1+rnd(8):0; int opt=rnd(3)?2:(int)rnd(3);
  access_base_make(base,sizeof base); for(uint32_t o=1;o<=nm;o++) must(&(request){.kind=ACCESS_BASE_NEW,.requester=1,.object=o});
  for(uint32_t a=0;a<admins;a++) for(uint32_t o=1;o<=nm&&o<=nm;o++) must(&(request){.kind=ACCESS_BASE_GRANTADM,.requester=1,.object=o,.subject=100+a});
  for(uint32_t i=0;i<1024;i++){ uint32_t a,b; if(shape==0){a=10+4*i;b=11+4*i;} else if(shape==1){a=10+2*i;b=20+3*i;} else {a=10+rnd(5000);b=a+rnd(60);}
   if(must(&(request){.kind=rnd(40)?ACCESS_BASE_GRANT:ACCESS_BASE_DENY,.requester=admins?(rnd(2)?1:100+rnd(admins)):1,.mode=1+(i/3)%8,.object=1+i%nm,.subject=3+(i*7)%ns,.start=a,.end=b,.option=rnd(2)})) {} }
  uint32_t g0=kinds==0?0:1; 
  #define AUT (admins?(rnd(3)?1:100+rnd(admins)):1)
  #define GR (kinds<2?g0: kinds==2? rnd(2) : kinds==3? (admins&&rnd(2)?100+rnd(admins):1) : 1+rnd(20))
  #define OP (ringop==1?1: rnd(8)?1:2)
  for(uint32_t j=0;j<ns;j++) rule(1,S(3+j,0,0,0),OP,S(3+(j+1)%ns,0,0,0),g0,opt,5,ACCESS_BASE_LAST);
  for(uint32_t j=0;j<nm;j++) rule(1,S(0,0,1+j,0),OP,S(0,0,1+(j+1)%nm,0),g0,opt,5,ACCESS_BASE_LAST);
  for(uint32_t j=0;j<md;j++) rule(1,S(0,1+j,0,0),OP,S(0,1+(j+1)%md,0,0),g0,opt,5,ACCESS_BASE_LAST);
  for(uint32_t j=0;j<idle;j++) rule(AUT,S(0,0,0,0),rnd(6)?1:2,S(0,0,0,0),GR,rnd(2)?2:(int)rnd(3),5+rnd(50),rnd(2)?ACCESS_BASE_LAST:2000+rnd(3000));
  if(!access_base_is_sound(base,sizeof base)){ continue; }
  double f=own_seconds(); uint64_t x=proto_when(base,sizeof base,3,1,1,lent.list,2*ACCESS_BASE_PAIRS); double w=own_seconds()-f;
  f=own_seconds(); uint64_t y=proto_may(base,sizeof base,3,1,1,4500); double m=own_seconds()-f;
  double t=w>m?w:m; if(t>limit||t>worst){ printf("seed %llu ns %u nm %u md %u idle %u ringop %u kinds %u shape %u admins %u opt %d: WHEN %.3f s MAY %.3f s (%llx %llx)\n",(unsigned long long)seed,ns,nm,md,idle,ringop,kinds,shape,admins,opt,w,m,(unsigned long long)x,(unsigned long long)y); fflush(stdout);} if(t>worst)worst=t; }
 printf("worst %.3f s\n",worst); }
