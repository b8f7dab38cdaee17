// The second yardstick: the algorithm of `ct answer` with the look-up of ct_index (slabs of 128 heads, a table of bits with 16
// rows for each two coordinates, heads that the table decides) and, by switches, what would come next. It answers as yard.cpp does, byte for byte.
//
//   g++ -O2 -std=c++17 -o yard2 yard2.cpp            (plain)
//   g++ -O2 -march=native -std=c++17 -o yard2n yard2.cpp
//   yard2 INSTANCE SESSIONS [--walks] [--levels] [--moves N] [--quiet] [--with a,b,..] [--best] [--repeat R]
//
// With no switch it does what the crates did when it was written, as they did it: points of u64 (in place up to 16
// coordinates, else on the heap), every pair stored by grade in an ordered map, the jobs of a grade sorted,
// a slot, a place and a journal entry for each, heads compared to see that a pair is coprime, the last
// slab copied where moves are added, both ends walked to their end.
//
// --with takes any of
//   mask    a pair is coprime where the supports (masks of 128 bits) are: no loop over coordinates
//   bound   pairs above the greatest grade asked for are not stored (but for the least such grade), coprime
//           pairs are not jobs (their grade alone is kept), jobs of a grade are not sorted, no journal
//   narrow  coordinates of 16 bits where no point of the completion can be above 65535 (else 32, else 64)
//   meet    the higher of both ends walks first, and where they meet the job is done
//   memo    where the walk of a grade comes to a point that an earlier walk of the grade came to, it ends there
//           (the hash of a point is linear, so that a step updates it by one product)
//   wide    a row of the table holds two slabs side by side, and rows are for as many coordinates as fit 16
//           rows by the exponents that heads have
//   nolists narrow without the lists of supports (the table alone)
//   column  the grades of new pairs are computed for one coordinate of the new head at a time over all heads
//   halve   the least point of b is walked to from twice that of b/2 (only without --walks: the walk is another)
// --best is mask, bound, narrow, nolists, column, halve and meet.
#include <cstdio>
#include <cstdlib>
#include <cstring>
#include <cstdint>
#include <vector>
#include <map>
#include <string>
#include <algorithm>
#include <ctime>
#include <memory>
#include <deque>
#include <immintrin.h>
#include <unistd.h>
using namespace std;
typedef long long i64; typedef unsigned long long u64; typedef __int128 i128; typedef unsigned __int128 u128; typedef uint16_t u16; typedef uint32_t u32;
// processor time of the process
static double now(){ timespec t; clock_gettime(CLOCK_PROCESS_CPUTIME_ID,&t); return t.tv_sec+1e-9*t.tv_nsec; }

// ---- input: one pass over the bytes ----
struct Reader{ string s; size_t at=0; string w;
  explicit Reader(const char*f){ FILE*h=fopen(f,"rb"); if(!h){ fprintf(stderr,"no file %s\n",f); exit(2);} fseek(h,0,SEEK_END); long z=ftell(h); fseek(h,0,SEEK_SET); s.resize(z); if(z&&fread(&s[0],1,z,h)!=(size_t)z) exit(2); fclose(h); }
  void skip(){ for(;;){ while(at<s.size()&&(unsigned char)s[at]<=32) at++; if(at<s.size()&&s[at]=='#'){ while(at<s.size()&&s[at]!='\n') at++; continue; } return; } }
  const string& word(){ skip(); size_t a=at; while(at<s.size()&&(unsigned char)s[at]>32&&s[at]!='#') at++; w.assign(s,a,at-a); return w; }
  i64 num(){ skip(); bool neg=false; if(at<s.size()&&s[at]=='-'){ neg=true; at++; } i64 v=0; while(at<s.size()&&s[at]>='0'&&s[at]<='9') v=v*10+(s[at++]-'0'); return neg?-v:v; } };
struct Out{ vector<char> b; size_t n=0; void need(size_t k){ if(n+k>b.size()) b.resize(max(b.size()*2,n+k+4096)); }
  void text(const char*t){ size_t k=strlen(t); need(k); memcpy(&b[n],t,k); n+=k; }
  void ch(char c){ need(1); b[n++]=c; }
  void num(u64 v){ need(24); if(v<10){ b[n++]='0'+v; return; } char t[24]; int k=24; while(v){ t[--k]='0'+v%10; v/=10; } memcpy(&b[n],t+k,24-k); n+=24-k; }
  void snum(i128 v){ if(v<0){ ch('-'); v=-v; } u128 u=v; if(u<=~0ull){ num((u64)u); return; } char t[48]; int k=48; while(u){ t[--k]='0'+(int)(u%10); u/=10; } need(48); memcpy(&b[n],t+k,48-k); n+=48-k; } };

static int m,n,w; static vector<i64> A,c,wt; static i64 GG; static int limit_=4096;
static bool F_nolists,F_mask,F_bound,F_meet,F_memo,F_wide,F_column,F_narrow,F_halve;
struct Req{ int phase,session; vector<i64> b; i64 g; };
static vector<Req> reqs; static vector<i64> phaseG; static vector<pair<int,int>> order_;

struct Stats{ u64 gens=0,pairs=0,coprime=0,nontrivial=0,steps=0,lookups=0,met=0,memohit=0,memopoints=0,rows=0,cands=0; double t_prepare=0,t_sort=0,t_walk=0,t_publish=0; };
static Stats S; static bool timing=false;
struct Tick{ double*p; double t; explicit Tick(double*q):p(timing?q:nullptr){ if(p) t=now(); } ~Tick(){ if(p) *p+=now()-t; } };

struct Full{ i64 grade; };
// what a completion leaves for the answers: wide points and the look-up for them
struct Final{ int nm=0; vector<u64> H,T; vector<i64> G; i64 full=-1,level=-1; bool all=false; };

static inline int ctz128(u128 x){ u64 lo=(u64)x; return lo?__builtin_ctzll(lo):64+__builtin_ctzll((u64)(x>>64)); }

// a list of moves with its index. T: the type of a coordinate. Points are padded to P coordinates.
template<class T> struct List{
  int P; vector<T> H,D,Tl; vector<u128> sup; vector<i64> G; vector<u64> hd; int nm=0; // D = tail - head, wrapping
  // the table. Groups of coordinates with at most 16 rows each; slabs side by side where F_wide
  int groups=0; vector<int> gfirst,glast; vector<T> lev; vector<u32> mul,base; // level of coordinate i is min(p_i, lev_i) * mul_i
  vector<u128> tab; vector<u128> decided; int slabs=0,lanes=1; vector<T> top; // greatest exponent of a head by coordinate
  explicit List(){ P=w; if(F_narrow) P=(w+3)/4*4; lev.assign(P,0); mul.assign(P,0); base.assign(P,0); top.assign(P,0); lanes=F_wide?2:1; grouping(); }
  void grouping(){ // coordinates to groups
    gfirst.clear(); glast.clear(); groups=0;
    if(!F_wide){ for(int i=0;i<P;i++) lev[i]=3; for(int i=0;i<w;i+=2){ mul[i]=4; if(i+1<w) mul[i+1]=1; gfirst.push_back(i); glast.push_back(min(i+2,w)); groups++; } }
    else { for(int i=0;i<w;i++) lev[i]=(T)min<u64>(max<u64>(top[i],1),3); int i=0; while(i<w){ int a=i,rows=1; while(i<w&&rows*(lev[i]+1)<=16){ rows*=lev[i]+1; i++; } int mm=rows; for(int z=a;z<i;z++){ mm/=lev[z]+1; mul[z]=mm; } gfirst.push_back(a); glast.push_back(i); groups++; } }
    for(int g=0;g<groups;g++) for(int i=gfirst[g];i<glast[g];i++) base[i]=g*16; }
  size_t rowat(int slab,int row)const{ return ((size_t)(slab/lanes)*groups*16+row)*lanes+slab%lanes; }
  void mark(int k){ const T*h=&H[(size_t)k*P]; int s=k>>7; u128 bit=(u128)1<<(k&127); bool low=true;
    for(int g=0;g<groups;g++) for(int r=0;r<16;r++){ bool above=false; for(int i=gfirst[g];i<glast[g];i++){ u32 l=r/mul[i]%(lev[i]+1); if(l<lev[i]&&h[i]>l) above=true; } if(above) tab[rowat(s,g*16+r)]|=bit; }
    for(int i=0;i<w;i++) if(h[i]>lev[i]) low=false;
    if(low) decided[s]|=bit; }
  void room(){ int s=(nm>>7)+1; if(s>slabs){ slabs=s; int ss=(s+lanes-1)/lanes*lanes; tab.resize((size_t)ss*groups*16,0); decided.resize(ss,0); if(lanes==2&&s%2==1&&ss>s-1) {} } }
  bool regroup(){ if(!F_wide) return false; bool need=false; for(int i=0;i<w;i++) if(min<u64>(max<u64>(top[i],1),3)!=lev[i]) need=true; return need; }
  void push(const T*h,const T*t,i64 g){ H.insert(H.end(),h,h+P); Tl.insert(Tl.end(),t,t+P); size_t at=D.size(); D.resize(at+P); for(int i=0;i<P;i++) D[at+i]=(T)(t[i]-h[i]); G.push_back(g); u128 mk=0; for(int i=0;i<w;i++) if(h[i]) mk|=(u128)1<<i; sup.push_back(mk); for(int i=0;i<w;i++) if(h[i]>top[i]) top[i]=h[i]; room(); nm++; }
  // after moves were added, from k0 on
  void index(int k0){ if(regroup()){ grouping(); fill(tab.begin(),tab.end(),0); tab.assign((size_t)((slabs+lanes-1)/lanes*lanes)*groups*16,0); fill(decided.begin(),decided.end(),0); k0=0; } for(int k=k0;k<nm;k++) mark(k); }
  void rows(const T*p,u32*off)const{ if(!F_wide){ int g=0; for(int i=0;i+1<w;i+=2,g++) off[g]=16*g+4*(u32)min<T>(p[i],3)+(u32)min<T>(p[i+1],3); if(w&1) off[g]=16*g+4*(u32)min<T>(p[w-1],3); }
    else if(sizeof(T)==2){ // levels of all coordinates at once, then sums of neighbours within a group
      for(int g=0;g<groups;g++){ u32 o=16*g; for(int i=gfirst[g];i<glast[g];i++) o+=(u32)min<T>(p[i],lev[i])*mul[i]; off[g]=o; } }
    else for(int g=0;g<groups;g++){ u32 o=16*g; for(int i=gfirst[g];i<glast[g];i++) o+=(u32)min<T>(p[i],lev[i])*mul[i]; off[g]=o; } }
  bool divides(int k,const T*p)const{ const T*h=&H[(size_t)k*P]; if(!F_narrow){ for(int i=0;i<w;i++) if(h[i]>p[i]) return false; return true; } T bad=0; for(int i=0;i<P;i++) bad|=(T)(h[i]>p[i]); return !bad; }
  int cand(int s,u128 in,const T*p)const{ int cnt=min(128,nm-s*128); if(cnt<128) in&=(((u128)1<<cnt)-1); u128 dec=decided[s]; while(in){ int j=ctz128(in); if((dec>>j)&1) return s*128+j; if(divides(s*128+j,p)) return s*128+j; in&=in-1; } return -1; }
  int first(const T*p)const{ S.lookups++; u32 off[48]; rows(p,off);
    if(lanes==1){ const u128*t=tab.data(); for(int s=0;s<slabs;s++,t+=groups*16){ u128 out=0; for(int g=0;g<groups;g++) out|=t[off[g]]; u128 in=~out; if(in){ int k=cand(s,in,p); if(k>=0) return k; } } return -1; }
    const u128*t=tab.data();
    for(int s=0;s<slabs;s+=2,t+=(size_t)groups*32){
#ifdef __AVX2__
      __m256i o=_mm256_loadu_si256((const __m256i*)(t+2*off[0])); int g=1;
      for(;g+3<groups;g+=4){ o=_mm256_or_si256(o,_mm256_or_si256(_mm256_or_si256(_mm256_loadu_si256((const __m256i*)(t+2*off[g])),_mm256_loadu_si256((const __m256i*)(t+2*off[g+1]))),_mm256_or_si256(_mm256_loadu_si256((const __m256i*)(t+2*off[g+2])),_mm256_loadu_si256((const __m256i*)(t+2*off[g+3]))))); }
      for(;g<groups;g++) o=_mm256_or_si256(o,_mm256_loadu_si256((const __m256i*)(t+2*off[g])));
      if(_mm256_testc_si256(o,_mm256_set1_epi8(-1))) continue;
      u128 q[2]; _mm256_storeu_si256((__m256i*)q,o); u128 a=~q[0],b=~q[1];
#else
      u128 x=0,y=0; for(int g=0;g<groups;g++){ x|=t[2*off[g]]; y|=t[2*off[g]+1]; } u128 a=~x,b=~y;
#endif
      if(a){ int k=cand(s,a,p); if(k>=0) return k; } if(b&&s+1<slabs){ int k=cand(s+1,b,p); if(k>=0) return k; } }
    return -1; }
  u64 times(int k,const T*p)const{ const T*h=&H[(size_t)k*P]; u128 mk=sup[k]; u64 q=~0ull; while(mk){ int i=ctz128(mk); u64 x=p[i],y=h[i]; u64 d=y==1?x:x<y?0:x-y<y?1:x/y; if(d<q) q=d; mk&=mk-1; } return q; }
  void shift(int k,u64 q,T*p)const{ if(!F_narrow){ const T*h=&H[(size_t)k*P],*t=&Tl[(size_t)k*P]; for(int i=0;i<w;i++) p[i]=(T)(p[i]-(T)q*h[i]+(T)q*t[i]); return; }
    const T*d=&D[(size_t)k*P]; if(q==1){ for(int i=0;i<P;i++) p[i]=(T)(p[i]+d[i]); } else { T z=(T)q; for(int i=0;i<P;i++) p[i]=(T)(p[i]+z*d[i]); } }
};

// The same list for narrow points of a width known when it is compiled: P coordinates of T, a multiple of 32 bytes.
// Look-ups either by the table, two slabs side by side, the places found by vector steps; or (sparse points of many
// coordinates) by lists of supports: each head stands in the list of one coordinate of its support, so that only the
// lists of the point's own support are looked at, and in these only heads with no coordinate outside of it.
template<class T,int P> struct Fast{
  vector<T> H,D,Tl; vector<u128> sup; vector<i64> G; vector<u64> hd; int nm=0; vector<char> low;
  static constexpr int groups=P/2; vector<u64> tab; vector<u128> decided; int slabs=0; bool lists; struct Sup{ vector<u64> mask,mask2; vector<int> id; }; vector<Sup> sl;
  explicit Fast(int P_=0){ (void)P_; sl.resize(P); lists=w>10&&!F_nolists; }
  void push(const T*h,const T*t,i64 g){ H.insert(H.end(),h,h+P); Tl.insert(Tl.end(),t,t+P); size_t at=D.size(); D.resize(at+P); for(int i=0;i<P;i++) D[at+i]=(T)(t[i]-h[i]); G.push_back(g); u128 mk=0; for(int i=0;i<w;i++) if(h[i]) mk|=(u128)1<<i; sup.push_back(mk);
    int best=-1; for(int i=0;i<w;i++) if(h[i]&&(best<0||sl[i].id.size()<sl[best].id.size())) best=i; sl[best].mask.push_back((u64)mk); sl[best].mask2.push_back((u64)(mk>>64)); sl[best].id.push_back(nm);
    char one=1; for(int i=0;i<w;i++) if(h[i]>1) one=0; low.push_back(one);
    int s0=(nm>>7)+1; if(s0>slabs){ slabs=s0; int pair=(slabs+1)/2; tab.resize((size_t)pair*groups*16*4,0); decided.resize(pair*2,0); }
    int k=nm++; int s=k>>7; u64*t0=&tab[(size_t)(s/2)*groups*64+(s&1)*2+((k>>6)&1)]; u64 bit=1ull<<(k&63); bool lo=true; for(int gq=0;gq<groups;gq++) for(int r=0;r<16;r++){ int a=r/4,b=r%4; if((a<3&&h[2*gq]>a)||(b<3&&h[2*gq+1]>b)) t0[(gq*16+r)*4]|=bit; } for(int i=0;i<w;i++) if(h[i]>3) lo=false; if(lo) decided[s]|=(u128)1<<(k&127); }
  void index(int){ }
  bool divides(int k,const T*p)const{ const T*h=&H[(size_t)k*P]; T bad=0; for(int i=0;i<P;i++) bad|=(T)(h[i]>p[i]); return !bad; }
  void rows(const T*p,u32*off)const{
    if(sizeof(T)==2){ const __m128i three=_mm_set1_epi16(3),mul=_mm_set1_epi32(0x00010004); __m128i base=_mm_setr_epi32(0,16,32,48); const __m128i inc=_mm_set1_epi32(64); for(int i=0;i<P;i+=8){ __m128i v=_mm_loadu_si128((const __m128i*)(p+i)); v=_mm_sub_epi16(v,_mm_subs_epu16(v,three)); _mm_storeu_si128((__m128i*)(off+i/2),_mm_add_epi32(_mm_madd_epi16(v,mul),base)); base=_mm_add_epi32(base,inc); } }
    else for(int g=0;g<groups;g++) off[g]=16*g+4*(u32)min<T>(p[2*g],3)+(u32)min<T>(p[2*g+1],3); }
  u128 support(const T*p)const{ u128 mk=0; if(sizeof(T)==2){ const __m128i z=_mm_setzero_si128(); for(int i=0;i<P;i+=16){ __m128i a=_mm_cmpeq_epi16(_mm_loadu_si128((const __m128i*)(p+i)),z),b=_mm_cmpeq_epi16(_mm_loadu_si128((const __m128i*)(p+i+8)),z); u32 q=~_mm_movemask_epi8(_mm_packs_epi16(a,b))&0xffff; mk|=(u128)q<<i; } } else for(int i=0;i<P;i++) if(p[i]) mk|=(u128)1<<i; return mk; }
  int cand(int s,u128 in,const T*p)const{ int cnt=min(128,nm-s*128); if(cnt<128) in&=(((u128)1<<cnt)-1); u128 dec=decided[s]; while(in){ int j=ctz128(in); if((dec>>j)&1) return s*128+j; if(divides(s*128+j,p)) return s*128+j; in&=in-1; } return -1; }
  int first(const T*p)const{ S.lookups++;
    if(lists){ u128 mk=support(p); int in_lists=0; { u128 q=mk; while(q){ in_lists+=sl[ctz128(q)].id.size(); q&=q-1; } } if(in_lists<slabs*w/3){ u64 no=~(u64)mk,no2=~(u64)(mk>>64); int best=nm; bool two=w>64; u128 left=mk;
        while(left){ int i=ctz128(left); left&=left-1; const Sup&L=sl[i]; int len=L.id.size(); const u64*ms=L.mask.data(); const int*id=L.id.data(); int x=0;
#ifdef __AVX2__
          const __m256i nv=_mm256_set1_epi64x(no);
          for(;x+3<len;x+=4){ __m256i c4=_mm256_cmpeq_epi64(_mm256_and_si256(_mm256_loadu_si256((const __m256i*)(ms+x)),nv),_mm256_setzero_si256()); int hit=_mm256_movemask_pd(_mm256_castsi256_pd(c4)); if(!hit) continue; if(id[x]>=best) goto done;
            while(hit){ int z=x+__builtin_ctz(hit); hit&=hit-1; int k=id[z]; if(k>=best) goto done; if(two&&(L.mask2[z]&no2)) continue; if(low[k]||divides(k,p)){ best=k; goto done; } } }
#endif
          for(;x<len;x++){ if(ms[x]&no) continue; int k=id[x]; if(k>=best) break; if(two&&(L.mask2[x]&no2)) continue; if(low[k]||divides(k,p)){ best=k; break; } }
          done:; }
        return best<nm?best:-1; } }
    u32 off[P/2]; rows(p,off); const int used=(w+1)/2; const u64*t=tab.data();
    for(int s=0;s<slabs;s+=2,t+=(size_t)groups*64){
#ifdef __AVX2__
      __m256i o=_mm256_loadu_si256((const __m256i*)(t+4*off[0])); int g=1; for(;g+1<used;g+=2) o=_mm256_or_si256(o,_mm256_or_si256(_mm256_loadu_si256((const __m256i*)(t+4*off[g])),_mm256_loadu_si256((const __m256i*)(t+4*off[g+1])))); if(g<used) o=_mm256_or_si256(o,_mm256_loadu_si256((const __m256i*)(t+4*off[g])));
      if(_mm256_testc_si256(o,_mm256_set1_epi8(-1))) continue; u128 q[2]; _mm256_storeu_si256((__m256i*)q,o);
#else
      __m128i x=_mm_loadu_si128((const __m128i*)(t+4*off[0])),y=_mm_loadu_si128((const __m128i*)(t+4*off[0]+2)); for(int g=1;g<used;g++){ x=_mm_or_si128(x,_mm_loadu_si128((const __m128i*)(t+4*off[g]))); y=_mm_or_si128(y,_mm_loadu_si128((const __m128i*)(t+4*off[g]+2))); } u128 q[2]; _mm_storeu_si128((__m128i*)q,x); _mm_storeu_si128((__m128i*)(q+1),y);
#endif
      u128 a=~q[0],b=~q[1]; if(a){ int k=cand(s,a,p); if(k>=0) return k; } if(b&&s+1<slabs){ int k=cand(s+1,b,p); if(k>=0) return k; } }
    return -1; }
  u64 times(int k,const T*p)const{ const T*h=&H[(size_t)k*P]; u128 mk=sup[k]; u64 q=~0ull; while(mk){ int i=ctz128(mk); u32 x=p[i],y=h[i]; u32 d=y==1?x:x<y?0:x-y<y?1:x/y; if(d<q) q=d; if(q==1) return 1; mk&=mk-1; } return q; }
  void shift(int k,u64 q,T*p)const{ const T*d=&D[(size_t)k*P]; if(q==1){ for(int i=0;i<P;i++) p[i]=(T)(p[i]+d[i]); } else { T z=(T)q; for(int i=0;i<P;i++) p[i]=(T)(p[i]+z*d[i]); } }
};
template<class T> static int cmpT(const T*p,const T*q){ i64 a=0; for(int i=n;i<w;i++) a+=(i64)p[i]-(i64)q[i]; if(a) return a<0?-1:1; i128 d=0; for(int j=0;j<n;j++) d+=(i128)c[j]*((i64)p[j]-(i64)q[j]); if(d) return d<0?-1:1; for(int i=0;i<w;i++) if(p[i]!=q[i]) return p[i]<q[i]?-1:1; return 0; }

struct Job{ int i,k; }; // i < 0: generator k; k < 0: coprime with -1-k
struct Entry{ u32 pass; u64 serial; u32 kind; u64 a,b; };
struct Version{ int number; i64 level; };

// the memo of a grade: points with their end. Open addressing, cleared by a stamp
template<class T> struct Memo{ vector<u32> slot; vector<u32> stamp; u32 now_=0; u64 maskv=0; vector<T> pts; vector<u64> hash; vector<u32> end; int P; size_t cnt=0;
  void start(size_t jobs,int P_){ P=P_; size_t want=1024; while(want<jobs*8) want*=2; if(want>maskv+1||!maskv){ slot.assign(want,0); stamp.assign(want,0); maskv=want-1; now_=0; } now_++; cnt=0; pts.clear(); hash.clear(); end.clear(); }
  void more(){ size_t want=(maskv+1)*2; slot.assign(want,0); stamp.assign(want,0); maskv=want-1; now_=1; for(u32 k=0;k<cnt;k++){ size_t z=hash[k]&maskv; while(stamp[z]==now_) z=(z+1)&maskv; stamp[z]=now_; slot[z]=k; } }
  // the number of the point, or the next number where it is new
  u32 find(const T*p,u64 h,bool&isnew){ if(cnt*2>maskv) more(); h^=h>>29; size_t z=h&maskv; while(stamp[z]==now_){ u32 k=slot[z]; if(hash[k]==h&&!memcmp(&pts[(size_t)k*P],p,P*sizeof(T))){ isnew=false; return k; } z=(z+1)&maskv; } stamp[z]=now_; slot[z]=cnt; hash.push_back(h); pts.insert(pts.end(),p,p+P); end.push_back(~0u); isnew=true; return cnt++; } };

template<class T,class LT,int PP> struct Completion{
  static constexpr int CP=PP; LT L; vector<vector<T>> HT; // by coordinate, over heads
  u64 R[128]; // multipliers of the linear hash
  vector<shared_ptr<Version>> keep; vector<Entry> journal; vector<i64> levels;
  bool too_narrow=false;
  u64 hashof(const T*p){ u64 h=0; for(int i=0;i<w;i++) h+=p[i]*R[i]; return h; }
  void walk(T*p){ for(;;){ int k=L.first(p); if(k<0) return; u64 q=L.times(k,p); L.shift(k,q,p); S.steps++; } }
  bool step(T*p){ int k=L.first(p); if(k<0) return false; u64 q=L.times(k,p); L.shift(k,q,p); S.steps++; return true; }
  vector<u32> path; vector<i64> dart,dcost; // what a step changes in the artificial total and in the cost
  u32 walk_memo(Memo<T>&M,T*p){ path.clear(); u64 h=hashof(p); u32 e; for(;;){ bool isnew; u32 id=M.find(p,h,isnew); if(!isnew){ S.memohit++; e=M.end[id]; break; } path.push_back(id); int k=L.first(p); if(k<0){ e=id; break; } u64 q=L.times(k,p); L.shift(k,q,p); h+=q*L.hd[k]; S.steps++; } for(u32 x:path) M.end[x]=e; return e; }
  bool run(Final&F){
    const int P=PP?PP:w; u64 x=88172645463325252ull; for(auto&r:R){ x^=x<<13; x^=x>>7; x^=x<<17; r=x|1; }
    map<i64,vector<Job>> q; i64 beyond=-1; // least grade above GG
    for(int j=0;j<n;j++) { if(F_bound&&wt[j]>GG){ if(beyond<0||wt[j]<beyond) beyond=wt[j]; } else q[wt[j]].push_back({-1,j}); }
    HT.assign(w,{}); vector<T> p(P,0),r(P,0); vector<pair<i64,Job>> parked; Memo<T> M; auto ver=make_shared<Version>();
    i64 bound=sizeof(T)==2?65535:sizeof(T)==4?4294967295ll:INT64_MAX;
    vector<u16> g16; vector<i64> gr; vector<char> shv; vector<u128> newsup;
    for(;;){
      if(q.empty()){ F.all=beyond<0; F.level=beyond-1; break; }
      i64 d=q.begin()->first; if(d>GG){ F.level=d-1; break; }
      if(d>bound){ too_narrow=true; return false; }
      vector<Job> jobs=move(q.begin()->second); q.erase(q.begin());
      vector<u32> slots; deque<u32> waiting;
      { Tick t(&S.t_sort); if(!F_bound){ auto lt=[](const Job&a,const Job&b){ return a.i!=b.i?a.i<b.i:a.k<b.k; }; if(!is_sorted(jobs.begin(),jobs.end(),lt)) stable_sort(jobs.begin(),jobs.end(),lt);
          journal.reserve(journal.size()+jobs.size()+1>journal.capacity()?max(journal.capacity()*2,journal.size()+jobs.size()+1):0); slots.assign(jobs.size(),0); for(u32 z=0;z<jobs.size();z++) waiting.push_back(z); } }
      vector<pair<vector<i64>,vector<T>>> rem; bool domemo=F_memo&&jobs.size()>=16; if(domemo) M.start(jobs.size(),P);
      { Tick t(&S.t_walk);
      for(size_t z=0;z<jobs.size();z++){ Job J=jobs[z]; shared_ptr<Version> mine; if(!F_bound){ mine=ver; u32 f=waiting.front(); waiting.pop_front(); waiting.push_back(f); }
        bool none=false;
        if(J.i<0){ S.gens++; fill(p.begin(),p.end(),0); p[J.k]=1; fill(r.begin(),r.end(),0); for(int i=0;i<m;i++) r[n+i]=(T)A[i*n+J.k]; }
        else { const T*hi=&L.H[(size_t)J.i*P],*ti=&L.Tl[(size_t)J.i*P],*hk=&L.H[(size_t)J.k*P],*tk=&L.Tl[(size_t)J.k*P];
          bool cop=false; if(!F_bound){ if(F_mask) cop=!(L.sup[J.i]&L.sup[J.k]); else { cop=true; for(int y=0;y<w;y++) if(hi[y]>0&&hk[y]>0){ cop=false; break; } } }
          if(cop){ S.coprime++; none=true; }
          else { S.pairs++; for(int y=0;y<P;y++){ T e=hk[y]>hi[y]?hk[y]-hi[y]:0; p[y]=(T)(e+ti[y]); } for(int y=0;y<P;y++){ T e=hi[y]>hk[y]?hi[y]-hk[y]:0; r[y]=(T)(e+tk[y]); } } }
        if(!none){
          bool same;
          if(domemo){ u32 a=walk_memo(M,p.data()),b=walk_memo(M,r.data()); same=a==b; if(!same){ memcpy(p.data(),&M.pts[(size_t)a*P],P*sizeof(T)); memcpy(r.data(),&M.pts[(size_t)b*P],P*sizeof(T)); } }
          else if(F_meet){ // the higher end walks. What is kept is the difference of the artificial totals and costs of both
            same=false; i64 da; i128 dc; if(J.i<0){ da=0; for(int y=n;y<w;y++) da+=(i64)p[y]-(i64)r[y]; dc=0; for(int y=0;y<n;y++) dc+=(i128)c[y]*((i64)p[y]-(i64)r[y]); } else { da=dart[J.i]-dart[J.k]; dc=(i128)dcost[J.i]-dcost[J.k]; }
            int who=0; for(;;){ int o; if(da) o=da<0?-1:1; else if(dc) o=dc<0?-1:1; else { o=0; for(int y=0;y<w;y++) if(p[y]!=r[y]){ o=p[y]<r[y]?-1:1; break; } if(!o){ same=true; S.met++; break; } }
              T*x=o>0?p.data():r.data(); int k=L.first(x); if(k<0){ who=o; break; } u64 q=L.times(k,x); L.shift(k,q,x); S.steps++; if(o>0){ da+=(i64)q*dart[k]; dc+=(i128)q*dcost[k]; } else { da-=(i64)q*dart[k]; dc-=(i128)q*dcost[k]; } }
            if(!same){ if(who>0) walk(r.data()); else walk(p.data()); } }
          else { walk(p.data()); walk(r.data()); same=F_narrow?!memcmp(p.data(),r.data(),P*sizeof(T)):p==r; }
          if(!same){ S.nontrivial++; vector<i64> deg(m); for(int i=0;i<m;i++){ i64 v=p[n+i]; for(int j=0;j<n;j++) v+=A[i*n+j]*(i64)p[j]; deg[i]=v; } rem.push_back({deg,p}); rem.push_back({deg,r}); } }
        if(!F_bound){ slots[z]=1; journal.push_back({0,journal.size(),1,(u64)J.i,(u64)J.k}); } } }
      if(!rem.empty()){ Tick t(&S.t_publish);
        sort(rem.begin(),rem.end()); rem.erase(unique(rem.begin(),rem.end()),rem.end());
        vector<pair<vector<T>,vector<T>>> addv;
        for(size_t a=0;a<rem.size();){ size_t b=a; while(b<rem.size()&&rem[b].first==rem[a].first) b++; size_t best=a; for(size_t x2=a;x2<b;x2++) if(cmpT(rem[x2].second.data(),rem[best].second.data())<0) best=x2; for(size_t x2=a;x2<b;x2++) if(x2!=best) addv.push_back({rem[x2].second,rem[best].second}); a=b; }
        sort(addv.begin(),addv.end());
        if((int)(L.nm+addv.size())>limit_){ F.full=d; F.level=d-1; break; }
        int k0=L.nm; for(auto&mv:addv){ L.push(mv.first.data(),mv.second.data(),d); u64 hh=0; for(int i=0;i<w;i++) hh+=(u64)((i64)mv.second[i]-(i64)mv.first[i])*R[i]; L.hd.push_back(hh); { i64 a=0,cc=0; for(int i=n;i<w;i++) a+=(i64)mv.second[i]-(i64)mv.first[i]; for(int j=0;j<n;j++) cc+=c[j]*((i64)mv.second[j]-(i64)mv.first[j]); dart.push_back(a); dcost.push_back(cc); } for(int i=0;i<w;i++) HT[i].push_back(mv.first[i]); }
        if(!F_bound&&k0>0){ int s=k0>>7; // the last slab made anew
          vector<T> hcopy(L.H.begin()+(size_t)s*128*P,L.H.begin()+(size_t)k0*P),tcopy(L.Tl.begin()+(size_t)s*128*P,L.Tl.begin()+(size_t)k0*P); volatile T sink=hcopy.empty()?0:hcopy[0]; (void)sink; (void)tcopy; }
        L.index(k0);
        Tick t2(&S.t_prepare);
        if(!F_column){ // as landed: rows of the earlier head, over the parts of the later heads
          struct Part{ size_t place; u64 value,weight; }; vector<Part> parts; vector<pair<size_t,size_t>> spans; for(int k=k0;k<L.nm;k++){ size_t s0=parts.size(); for(int i=0;i<w;i++) if(T v=L.H[(size_t)k*P+i]) parts.push_back({(size_t)i,(u64)v,(u64)wt[i]}); spans.push_back({s0,parts.size()}); }
          vector<pair<i64,Job>> more; for(int i=0;i<L.nm;i++){ const T*hi=&L.H[(size_t)i*P]; for(int k=max(i+1,k0);k<L.nm;k++){ u64 g=L.G[i]; auto sp=spans[k-k0]; for(size_t z=sp.first;z<sp.second;z++){ const Part&pt=parts[z]; u64 have=hi[pt.place]; g+=pt.value>have?pt.weight*(pt.value-have):0; }
              if(F_bound){ bool cop=!(L.sup[i]&L.sup[k]); if((i64)g>GG){ if(beyond<0||(i64)g<beyond) beyond=g; } else if(!cop) q[g].push_back({i,k}); else S.coprime++; }
              else more.push_back({(i64)g,{i,k}}); } }
          if(!F_bound){ for(size_t z=parked.size();z-->0;) q[parked[z].first].push_back(parked[z].second); parked=move(more); for(size_t z=parked.size();z-->0;) q[parked[z].first].push_back(parked[z].second); parked.clear(); }
        } else { for(int k=k0;k<L.nm;k++){ gr.assign(L.G.begin(),L.G.begin()+k); const T*hk=&L.H[(size_t)k*P];
            u128 mk=L.sup[k]; while(mk){ int i=ctz128(mk); mk&=mk-1; const T v=hk[i]; const i64 wx=wt[i]; const T*col=HT[i].data(); i64*gp=gr.data();
              if(wx==1) for(int z=0;z<k;z++){ T e=v>col[z]?v-col[z]:0; gp[z]+=e; } else for(int z=0;z<k;z++){ T e=v>col[z]?v-col[z]:0; gp[z]+=wx*(i64)e; } }
            u128 me=L.sup[k]; for(int i=0;i<k;i++){ i64 g=gr[i]; bool cop=!(L.sup[i]&me);
              if(F_bound){ if(g>GG){ if(beyond<0||g<beyond) beyond=g; } else if(cop) S.coprime++; else q[g].push_back({i,k}); } else q[g].push_back({i,k}); } } }
      }
      if(!F_bound){ ver=make_shared<Version>(Version{(int)levels.size(),d}); levels.push_back(d); }
    }
    F.nm=L.nm; F.H.resize((size_t)F.nm*w); F.T.resize((size_t)F.nm*w); for(int k=0;k<F.nm;k++) for(int i=0;i<w;i++){ F.H[(size_t)k*w+i]=L.H[(size_t)k*P+i]; F.T[(size_t)k*w+i]=L.Tl[(size_t)k*P+i]; } F.G=L.G;
    S.memopoints+=0; return true; }
};
template<class T,int P> static bool fastrun(Final&F){ Completion<T,Fast<T,P>,P> C; return C.run(F); }
static bool tryrun(Final&F,int bits){ F=Final();
  if(bits==16) return w<=16?fastrun<u16,16>(F):w<=32?fastrun<u16,32>(F):w<=48?fastrun<u16,48>(F):w<=64?fastrun<u16,64>(F):fastrun<u16,80>(F);
  if(bits==32) return w<=8?fastrun<u32,8>(F):w<=16?fastrun<u32,16>(F):w<=32?fastrun<u32,32>(F):w<=48?fastrun<u32,48>(F):w<=64?fastrun<u32,64>(F):fastrun<u32,80>(F);
  Completion<u64,List<u64>,0> C; return C.run(F); }

int main(int ac,char**av){
  if(ac<3){ fprintf(stderr,"usage: yard2 INSTANCE SESSIONS [--walks] [--levels] [--moves N] [--quiet] [--with a,b,..] [--best] [--timing]\n"); return 2; }
  bool walks=false,lev=false,quiet=false;
  auto on=[&](const string&s){ if(s=="mask") F_mask=1; else if(s=="bound") F_bound=1; else if(s=="narrow") F_narrow=1; else if(s=="meet") F_meet=1; else if(s=="memo") F_memo=1; else if(s=="wide") F_wide=1; else if(s=="column") F_column=1; else if(s=="halve") F_halve=1; else if(s=="nolists") F_nolists=1; else { fprintf(stderr,"no switch %s\n",s.c_str()); exit(2); } };
  for(int i=3;i<ac;i++){ string s=av[i]; if(s=="--walks") walks=true; else if(s=="--levels") lev=true; else if(s=="--quiet") quiet=true; else if(s=="--timing") timing=true; else if(s=="--moves") limit_=atoi(av[++i]); else if(s=="--best") for(auto x:{"mask","bound","narrow","nolists","column","halve","meet"}) on(x); else if(s=="--with"){ string t=av[++i]; size_t a=0; while(a<=t.size()){ size_t b=t.find(',',a); if(b==string::npos) b=t.size(); if(b>a) on(t.substr(a,b-a)); a=b+1; } } else return 2; }
  double t0=now();
  { Reader t(av[1]); t.word(); t.word(); t.word(); m=t.num(); t.word(); n=t.num(); w=m+n; t.word(); A.resize(m*n); for(auto&x:A) x=t.num(); t.word(); c.resize(n); for(auto&x:c) x=t.num(); }
  { Reader s(av[2]); s.word(); s.word(); int ph=0,se=0; i64 Gmax=0; for(;;){ const string&x=s.word(); if(x=="end"||x.empty()) break; if(x=="phase"){ ph++; se=0; Gmax=max(Gmax,s.num()); phaseG.push_back(Gmax); order_.push_back({ph,0}); } else if(x=="session"){ se++; order_.push_back({ph,se}); } else { Req r; r.phase=ph; r.session=se; r.g=0; r.b.resize(m); for(auto&v:r.b){ v=s.num(); r.g+=v; } Gmax=max(Gmax,r.g); phaseG[ph-1]=Gmax; reqs.push_back(move(r)); } } GG=Gmax; }
  wt.assign(w,1); for(int j=0;j<n;j++){ wt[j]=0; for(int i=0;i<m;i++) wt[j]+=A[i*n+j]; }
  double t1=now(); Final F; bool ok=false; if(F_narrow) for(int bits:{16,32}){ if(bits==16&&GG>65535&&*max_element(wt.begin(),wt.end())>2000) continue; S=Stats(); if(tryrun(F,bits)){ ok=true; break; } } if(!ok){ S=Stats(); tryrun(F,64); }
  double t2=now(); Stats C=S; S=Stats();
  List<u64>*L; { L=new List<u64>(); L->P=F_narrow?(w+3)/4*4:w; vector<u64> h(L->P,0),t(L->P,0); for(int k=0;k<F.nm;k++){ for(int i=0;i<w;i++){ h[i]=F.H[(size_t)k*w+i]; t[i]=F.T[(size_t)k*w+i]; } L->push(h.data(),t.data(),F.G[k]); } if(F_wide) L->grouping(), L->tab.assign((size_t)((L->slabs+1)/2*2)*L->groups*16,0); L->index(0); }
  Out o; o.text("report 1\n"); int cur=0; u64 no=0,ni=0,nf=0; i128 total=0; vector<u64> p(L->P); vector<pair<int,u64>> rec;
  auto level=[&](int ph){ if(!lev) return; i64 G=phaseG[ph-1]; o.text("level "); if(F.full>=0&&F.full<=G) o.num(F.full-1); else if(F.all) o.text("all"); else o.num(F.level); o.ch('\n'); };
  auto walk=[&](bool keep){ for(;;){ int k=L->first(p.data()); if(k<0) return; u64 q=L->times(k,p.data()); L->shift(k,q,p.data()); S.steps++; if(keep) rec.push_back({k+1,q}); } };
  size_t ri=0; for(auto&hd:order_){ if(hd.second==0){ if(cur) level(cur); cur=hd.first; o.text("phase "); o.num(cur); o.ch('\n'); continue; } o.text("session "); o.num(hd.second); o.ch('\n');
    for(;ri<reqs.size()&&reqs[ri].phase==hd.first&&reqs[ri].session==hd.second;ri++){ Req&R=reqs[ri]; if(F.full>=0&&F.full<=R.g){ nf++; o.text("full "); o.num(F.full); o.ch('\n'); continue; }
      rec.clear(); fill(p.begin(),p.end(),0);
      if(F_halve&&!walks){ int top=0; for(i64 x:R.b) while((x>>top)>15) top++; for(int z=top;z>=0;z--){ if(z<top) for(auto&x:p) x*=2; for(int i=0;i<m;i++){ u64 a=R.b[i]>>z; u64 add=z==top?a:(a&1); p[n+i]+=add; } walk(false); } }
      else { for(int i=0;i<m;i++) p[n+i]=R.b[i]; walk(walks); }
      u64 art=0; for(int i=n;i<w;i++) art+=p[i];
      if(art){ ni++; o.text("infeasible short "); o.num(art); o.ch('\n'); } else { no++; i128 v=0; for(int j=0;j<n;j++) v+=(i128)c[j]*p[j]; total+=v; o.text("optimum "); o.snum(v); o.text(" at"); for(int j=0;j<n;j++){ o.ch(' '); o.num(p[j]); } o.ch('\n'); }
      if(walks){ o.text("walk"); if(rec.empty()) o.text(" -"); for(auto&x:rec){ o.ch(' '); o.num(x.first); o.ch('*'); o.num(x.second); } o.ch('\n'); } } }
  if(cur) level(cur); o.text("end\n"); double t4=now(); if(!quiet) fwrite(o.b.data(),1,o.n,stdout);
  string sl; if(F.all) sl="all"; else sl=to_string(F.level);
  fprintf(stderr,"read_s %.6f\ncomplete_s %.6f\nwalks_s %.6f\nmoves %d\nfull %lld\nlevel %s\ngenerators %llu\npairs %llu\ncoprime %llu\nnontrivial %llu\ncompletion_steps %llu\ncompletion_lookups %llu\nmet %llu\nmemo_hits %llu\nwalk_steps %llu\noptimum %llu\ninfeasible %llu\nfulls %llu\n",t1-t0,t2-t1,t4-t2,F.nm,F.full,sl.c_str(),C.gens,C.pairs,C.coprime,C.nontrivial,C.steps,C.lookups,C.met,C.memohit,S.steps,no,ni,nf);
  if(timing) fprintf(stderr,"t_sort %.6f\nt_walk %.6f\nt_publish %.6f\nt_prepare %.6f\n",C.t_sort,C.t_walk,C.t_publish-C.t_prepare,C.t_prepare);
  fflush(stdout); _exit(0); }
