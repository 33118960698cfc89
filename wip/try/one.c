#include "cb/harness.h"
#include "cb/bases.h"
/* one NAME may|when SUBJECT INSTANT COUNT */
extern void starred_chain(void), circle(void), circle_few(void), one_rule(void), one_meter(void), all_meters(void), all_meters_aslongas(void), widest(void), widest_choosy(void), widest_unless(void), widest_circle(void), one_owner(void), zigzag(void), cut_up_with_rule(void), apart(void), named_chain(void);
int main(int c, char **v){
  struct {const char*n; void(*f)(void);} t[]={{"starred_chain",starred_chain},{"circle",circle},{"circle_few",circle_few},{"one_rule",one_rule},{"one_meter",one_meter},{"all_meters",all_meters},{"all_meters_aslongas",all_meters_aslongas},{"widest",widest},{"widest_choosy",widest_choosy},{"widest_unless",widest_unless},{"widest_circle",widest_circle},{"one_owner",one_owner},{"zigzag",zigzag},{"cut",cut_up_with_rule},{"apart",apart},{"named_chain",named_chain},{"rings",rings},{"rings_choosy",rings_choosy},{"rings_kinds",rings_kinds}};
  for(unsigned i=0;i<sizeof t/sizeof*t;i++) if(!strcmp(t[i].n,v[1])) t[i].f();
  long n=atol(v[5]); unsigned s=atoi(v[3]),at=atoi(v[4]); reply r;
  extern uint64_t proto_may(const uint8_t*,size_t,uint32_t,uint32_t,uint32_t,uint32_t);
  extern uint64_t proto_when(const uint8_t*,size_t,uint32_t,uint32_t,uint32_t,uint32_t*,size_t);
  double f=own_seconds();uint64_t x=0;
  for(long i=0;i<n;i++) x+= v[2][0]=='m'? proto_may(base,sizeof base,s,1,1,at): proto_when(base,sizeof base,s,1,1,lent.list,2*ACCESS_BASE_PAIRS);
  printf("%s %s: %.3f us (%llu)\n",v[1],v[2],1e6*(own_seconds()-f)/n,(unsigned long long)x);
}
