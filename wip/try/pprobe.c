#include "cb/plain.c"
static struct view V;
void probe_read(const uint8_t*b,size_t n){ read_base(&V,b,n); }
uint32_t probe_may(uint32_t s,uint32_t m,uint32_t o,uint32_t t){ return answer(&V,s,m,o,t).number; }
uint32_t probe_when(uint32_t s,uint32_t m,uint32_t o,uint32_t*l,size_t n){ uint32_t r=refuse_question(&V,s,m,o); if(r) return 0; struct line a=asked_right(s,m,o); return list_runs(&V,&a,l,n).number; }
