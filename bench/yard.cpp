// yard: the yardstick. A straightforward C++ program that does the same work as `ct answer`:
// truncated completion by grade (all pairs whose heads share a variable are walked; the only
// criterion is "coprime heads"), then walks for every right-hand side, in the refined order
// (artificial total, cost, coordinates). Heads are looked up in a bitset index (narrow points)
// or in lists by support (wide points), both find the FIRST dividing head. One thread.
//
//   g++ -O2 -std=c++17 -o yard yard.cpp
//   yard INSTANCE SESSIONS [--walks] [--levels] [--moves N] [--grade G] [--gm] [--chain] [--quiet] [--points FILE [--most N]] [--ledger FILE]
//
// --gm    also drops pairs by the cancellation criterion (a step that the product leaves out):
//         a pair is skipped where the two tails share a variable, and coprime pairs aren't kept as jobs;
//         so the level line isn't the product's then.
// --chain drops pairs by Buchberger's second criterion, which the product leaves out too. With
//         both, the list of moves is the same; the time is that of a peer with criteria.
// --points FILE times nothing but look-ups and walks: of ends of pairs, at most N of them, which it writes
//         to the file with the moves, so that another program can look up and walk the same.
// The report text goes to stdout, the timings to stderr as "key value" lines.
#include <cstdio>
#include <cstdlib>
#include <cstring>
#include <cstdint>
#include <vector>
#include <map>
#include <string>
#include <algorithm>
#include <chrono>
#include <fstream>
#include <sstream>
using namespace std;
typedef long long i64; typedef unsigned long long u64; typedef __int128 i128;
static double now(){ return chrono::duration<double>(chrono::steady_clock::now().time_since_epoch()).count(); }
static int m,n,w; static vector<i64> A; static vector<i64> c; static vector<i64> wt; // grade weights
static vector<string> tokens(const char*f){ ifstream in(f); if(!in){fprintf(stderr,"no file %s\n",f);exit(2);} vector<string> t; string l; while(getline(in,l)){ auto h=l.find('#'); if(h!=string::npos) l.resize(h); stringstream s(l); string x; while(s>>x) t.push_back(x);} return t; }
typedef vector<i64> Pt;
static int cmp(const i64*p,const i64*q){ i64 a=0; for(int i=n;i<w;i++) a+=p[i]-q[i]; if(a) return a<0?-1:1; i128 d=0; for(int j=0;j<n;j++) d+=(i128)c[j]*(p[j]-q[j]); if(d) return d<0?-1:1; for(int i=0;i<w;i++) if(p[i]!=q[i]) return p[i]<q[i]?-1:1; return 0; }
static vector<i64> H,T; static vector<i64> G_; // heads, tails (flat), grades
// sparse forms: for each move the coordinates of its head and the changes of one step
static vector<int> hs0,ds0; static vector<int> hsI,dsI; static vector<i64> hsV,dsV;
// bitset index: per coordinate the sorted distinct values; per value a bitset of the heads with
// head_i <= value, padded to blocks of 8 words; small values are found by a table
typedef u64 blk __attribute__((vector_size(64), aligned(8)));
struct Coord{ vector<i64> vals; vector<u64*> bits; vector<short> tab; };
static vector<Coord> ix; static int nm=0, words=0, cap=0;
static const i64 TAB=1024;
static void grow(){ int nc=cap?cap*2:8; for(auto&C:ix) for(auto&b:C.bits){ u64*x=(u64*)calloc(nc,8); if(cap) memcpy(x,b,8*cap); free(b); b=x; } cap=nc; }
// support lists for wide points: each head stands in the list of one coordinate of its support
// (the one whose list is shortest); a point needs only the lists of its own support
struct Sup{ vector<u64> mask; vector<int> id; };
static vector<Sup> sup;
static inline u64 bitof(int i){ return 1ull<<(i&63); }
static void push_move(const i64*h,const i64*t,i64 g){
  H.insert(H.end(),h,h+w); T.insert(T.end(),t,t+w); G_.push_back(g);
  if(hs0.empty()){ hs0.push_back(0); ds0.push_back(0); }
  for(int i=0;i<w;i++){ if(h[i]){ hsI.push_back(i); hsV.push_back(h[i]); } if(t[i]!=h[i]){ dsI.push_back(i); dsV.push_back(t[i]-h[i]); } }
  hs0.push_back(hsI.size()); ds0.push_back(dsI.size());
  int k=nm++; words=(nm+63)/64; if(words>cap) grow();
  { u64 mk=0; int best=-1; for(int i=0;i<w;i++) if(h[i]){ mk|=bitof(i); if(best<0||sup[i].id.size()<sup[best].id.size()) best=i; } sup[best].mask.push_back(mk); sup[best].id.push_back(k); }
  for(int i=0;i<w;i++){ Coord&C=ix[i]; i64 v=h[i]; size_t pos=lower_bound(C.vals.begin(),C.vals.end(),v)-C.vals.begin();
    if(pos==C.vals.size()||C.vals[pos]!=v){ C.vals.insert(C.vals.begin()+pos,v); u64*nb=(u64*)calloc(cap,8); if(pos) memcpy(nb,C.bits[pos-1],8*cap); C.bits.insert(C.bits.begin()+pos,nb);
      i64 top=min(C.vals.back(),TAB); C.tab.resize(top+1); size_t q=0; for(i64 x=0;x<=top;x++){ while(q<C.vals.size()&&C.vals[q]<=x) q++; C.tab[x]=(short)q; } }
    for(size_t q=pos;q<C.vals.size();q++) C.bits[q][k>>6]|=1ull<<(k&63); }
}
struct Mask{ u64 a,b; };
static Mask maskof(const i64*p){ Mask k{0,0}; for(int i=0;i<w;i++) if(p[i]) (i<64?k.a:k.b)|=1ull<<(i&63); return k; }
static bool hit(const Mask&x,const Mask&y){ return (x.a&y.a)|(x.b&y.b); }
static vector<Mask> HM,TM;
static u64 lookups=0;
__attribute__((target_clones("avx512f","avx2","default")))
static int scan(const u64*const*rows,int r,int from,int to){
  for(int x=from;x<to;x+=8){ blk b=*(const blk*)(rows[0]+x); int k=1;
    for(;k+1<r;k+=2){ b&=*(const blk*)(rows[k]+x); b&=*(const blk*)(rows[k+1]+x); if(!(b[0]|b[1]|b[2]|b[3]|b[4]|b[5]|b[6]|b[7])) goto next; }
    if(k<r) b&=*(const blk*)(rows[k]+x);
    for(int z=0;z<8;z++) if(b[z]) return ((x+z)<<6)+__builtin_ctzll(b[z]);
    next:; }
  return -1; }
static int first_div(const i64*p){
  lookups++; if(!nm) return -1;
  if(w>10){ int S[80],ns=0; u64 mk=0; for(int i=0;i<w;i++) if(p[i]){ S[ns++]=i; mk|=bitof(i); }
    if(ns*2<=w){ mk=~mk; int best=nm; for(int a=0;a<ns;a++){ const Sup&L=sup[S[a]]; const u64*ms=L.mask.data(); const int*id=L.id.data(); int len=L.id.size();
        for(int x=0;x<len;x++){ if(ms[x]&mk) continue; int k=id[x]; if(k>=best) break; bool ok=true; for(int z=hs0[k];z<hs0[k+1];z++) if(p[hsI[z]]<hsV[z]){ ok=false; break; } if(ok){ best=k; break; } } }
      return best<nm?best:-1; } }
  const u64* rows[80]; int r=0;
  for(int i=0;i<w;i++){ Coord&C=ix[i]; i64 v=p[i];
    if(v>=C.vals.back()) continue; // all heads fit here
    size_t pos; if(v<=TAB) pos=C.tab[v]; else { const i64*base=C.vals.data(); size_t len=C.vals.size(); while(len>1){ size_t h=len/2; base=base[h-1]<=v?base+h:base; len-=h; } pos=(base-C.vals.data())+(*base<=v); }
    if(pos==0) return -1; rows[r++]=C.bits[pos-1]; }
  if(r==0) return 0;
  for(int x=0;x<words&&x<2;x++){ u64 b=rows[0][x]; for(int k=1;k<r&&b;k++) b&=rows[k][x]; if(b) return (x<<6)+__builtin_ctzll(b); }
  if(words<=2) return -1;
  int k=scan(rows,r,0,words); return k; }
// whether another head below the lcm L of heads i and k makes both its pairs with them smaller
static bool chain(const i64*L,int i,int k){
  const i64*hi=&H[(size_t)i*w],*hk=&H[(size_t)k*w]; const u64* rows[80]; int r=0;
  for(int x=0;x<w;x++){ Coord&C=ix[x]; i64 v=L[x]; if(v>=C.vals.back()) continue; size_t pos; if(v<=TAB) pos=C.tab[v]; else pos=upper_bound(C.vals.begin(),C.vals.end(),v)-C.vals.begin(); rows[r++]=C.bits[pos-1]; }
  for(int x=0;x<words;x++){ u64 b=~0ull; if(x==words-1&&(nm&63)) b=(1ull<<(nm&63))-1; for(int z=0;z<r&&b;z++) b&=rows[z][x];
    while(b){ int l=(x<<6)+__builtin_ctzll(b); b&=b-1; if(l==i||l==k) continue; const i64*hl=&H[(size_t)l*w]; bool a=false,c2=false;
      for(int y=0;y<w;y++){ if(hl[y]<L[y]){ if(hi[y]<L[y]) a=true; if(hk[y]<L[y]) c2=true; } }
      if(a&&c2) return true; } }
  return false; }
static u64 steps=0;
static vector<i64>*seen=nullptr; // where set, each point that is looked up
static void walk(i64*p, vector<pair<int,i64>>*rec){
  for(;;){ if(seen) seen->insert(seen->end(),p,p+w); int k=first_div(p); if(k<0) return; int a=hs0[k],z=hs0[k+1]; bool two=true;
    for(int i=a;i<z;i++) if(p[hsI[i]]<2*hsV[i]){ two=false; break; }
    if(!two){ for(int i=ds0[k];i<ds0[k+1];i++) p[dsI[i]]+=dsV[i]; steps++; if(rec) rec->push_back({k+1,1}); continue; }
    i64 q=-1; for(int i=a;i<z;i++){ u64 x=(u64)p[hsI[i]],y=(u64)hsV[i]; i64 d=((x|y)>>32)?(i64)(x/y):(i64)((uint32_t)x/(uint32_t)y); if(q<0||d<q) q=d; }
    for(int i=ds0[k];i<ds0[k+1];i++) p[dsI[i]]+=q*dsV[i];
    steps++; if(rec) rec->push_back({k+1,q}); } }
// Ends of pairs that share a variable, at most so many, and the points of their walks: written with the moves to a file, looked up and
// walked, each several times. The best times are printed.
static void points_mode(const char*file,i64 GG,size_t limit){
  vector<i64> starts,points,p(w),r(w); u64 pairs=(u64)nm*(nm-1)/2, every=max<u64>(1,pairs/(4*limit)), at=0;
  for(int a=0;a<nm;a++) for(int b=a+1;b<nm;b++){ if(at++%every) continue; if(starts.size()>=limit*w) break;
    const i64*hi=&H[(size_t)a*w],*ti=&T[(size_t)a*w],*hk=&H[(size_t)b*w],*tk=&T[(size_t)b*w]; bool share=false; i64 g=0;
    for(int x=0;x<w;x++){ i64 l=max(hi[x],hk[x]); share|=hi[x]&&hk[x]; g+=l*wt[x]; p[x]=l-hi[x]+ti[x]; r[x]=l-hk[x]+tk[x]; }
    if(!share||g>GG) continue; starts.insert(starts.end(),p.begin(),p.end()); starts.insert(starts.end(),r.begin(),r.end()); }
  size_t n=starts.size()/w; seen=&points; for(size_t z=0;z<n;z++){ copy(&starts[z*w],&starts[z*w]+w,p.begin()); walk(p.data(),nullptr); } seen=nullptr;
  size_t total=points.size()/w, keep=max<size_t>(1,total/(2*limit)); vector<i64> some; for(size_t z=0;z<total;z+=keep) some.insert(some.end(),&points[z*w],&points[z*w]+w); points.swap(some);
  FILE*f=fopen(file,"w"); auto put=[&](const i64*x){ for(int i=0;i<w;i++) fprintf(f,"%lld ",(long long)x[i]); fprintf(f,"\n"); };
  fprintf(f,"%d\n",nm); for(int k=0;k<nm;k++){ put(&H[(size_t)k*w]); put(&T[(size_t)k*w]); }
  size_t np=points.size()/w; fprintf(f,"%zu\n",np); for(size_t z=0;z<np;z++) put(&points[z*w]); fprintf(f,"%zu\n",n); for(size_t z=0;z<n;z++) put(&starts[z*w]); fclose(f);
  double look=1e9,walked=1e9; u64 sum=0,taken=0,found=0;
  for(int rep=0;rep<7;rep++){ double t=now(); sum=found=0; for(size_t z=0;z<np;z++){ int k=first_div(&points[z*w]); sum+=k+1; found+=k>=0; } look=min(look,now()-t);
    t=now(); steps=0; for(size_t z=0;z<n;z++){ copy(&starts[z*w],&starts[z*w]+w,p.begin()); walk(p.data(),nullptr); } walked=min(walked,now()-t); taken=steps; }
  printf("moves %d points %zu found %llu sum of numbers %llu\nwalks %zu steps %llu\nlookup_ns %.0f walk_ns %.0f\n",nm,np,(unsigned long long)found,(unsigned long long)sum,n,(unsigned long long)taken,look*1e9,walked*1e9); }
static string s128(i128 v){ if(v==0) return "0"; bool neg=v<0; if(neg) v=-v; string s; while(v){ s+=char('0'+(int)(v%10)); v/=10;} if(neg) s+='-'; reverse(s.begin(),s.end()); return s; }
int main(int ac,char**av){
  if(ac<3){ fprintf(stderr,"usage: yard INSTANCE SESSIONS [--walks] [--levels] [--moves N] [--grade G] [--gm] [--chain] [--quiet] [--points FILE [--most N]]\n"); return 2; }
  bool walks=false,levels=false,gm=false,ch=false,quiet=false; const char*led=nullptr; const char*pts=nullptr; size_t most=20000; int limit=4096; i64 fixedG=-1;
  for(int i=3;i<ac;i++){ string s=av[i]; if(s=="--walks") walks=true; else if(s=="--levels") levels=true; else if(s=="--gm") gm=true; else if(s=="--chain") ch=true; else if(s=="--ledger") led=av[++i]; else if(s=="--points") pts=av[++i]; else if(s=="--most") most=atoi(av[++i]); else if(s=="--quiet") quiet=true; else if(s=="--moves") limit=atoi(av[++i]); else if(s=="--grade") fixedG=atoll(av[++i]); else return 2; }
  double t0=now();
  auto t=tokens(av[1]); size_t k=2; m=stoi(t[3]); n=stoi(t[5]); w=m+n; k=7; A.resize(m*n); for(auto&x:A) x=stoll(t[k++]); k++; c.resize(n); for(auto&x:c) x=stoll(t[k++]);
  struct Req{int phase,session; vector<i64> b;}; vector<Req> reqs; i64 Gmax=0; vector<i64> phaseG; vector<pair<int,int>> heads; 
  auto s=tokens(av[2]); k=2; int ph=0,se=0; while(k<s.size()&&s[k]!="end"){ if(s[k]=="phase"){ ph++; se=0; Gmax=max(Gmax,(i64)stoll(s[k+1])); phaseG.push_back(Gmax); heads.push_back({ph,0}); k+=2; } else if(s[k]=="session"){ se++; heads.push_back({ph,se}); k++; } else { k++; Req r; r.phase=ph; r.session=se; i64 g=0; for(int i=0;i<m;i++){ r.b.push_back(stoll(s[k++])); g+=r.b.back(); } Gmax=max(Gmax,g); phaseG[ph-1]=Gmax; reqs.push_back(r);} }
  i64 GG = fixedG>=0?fixedG:Gmax;
  wt.assign(w,1); for(int j=0;j<n;j++){ wt[j]=0; for(int i=0;i<m;i++) wt[j]+=A[i*n+j]; }
  ix.resize(w); sup.resize(w);
  double t1=now();
  struct Job{ int i,k; };
  map<i64,vector<Job>> q; vector<Job> done; for(int j=0;j<n;j++) q[wt[j]].push_back({-1,j});
  i64 full=-1; u64 pairs=0,coprime=0,gens=0,nontrivial=0,skipped=0,dropped=0; i64 level=-1; bool all=false;
  vector<i64> p(w),r(w),lc(w),gr; vector<char> shv; vector<vector<i64>> HT(w);
  auto joborder=[](const Job&a,const Job&b){ return (((u64)(unsigned)(a.i+1))<<32|(unsigned)max(a.k,-1-a.k))<(((u64)(unsigned)(b.i+1))<<32|(unsigned)max(b.k,-1-b.k)); };
  vector<i64> fin; // finished grades with move counts
  vector<pair<i64,int>> hist;
  for(;;){ if(q.empty()){ all=true; break; } i64 d=q.begin()->first; if(d>GG){ level=d-1; break; }
    auto jobs=move(q.begin()->second); q.erase(q.begin());
    if(!is_sorted(jobs.begin(),jobs.end(),joborder)) sort(jobs.begin(),jobs.end(),joborder);
    vector<pair<Pt,Pt>> rem; // (degree, point)
    for(auto&J:jobs){
      if(J.i<0){ gens++; fill(p.begin(),p.end(),0); p[J.k]=1; fill(r.begin(),r.end(),0); for(int i=0;i<m;i++) r[n+i]=A[i*n+J.k]; }
      else if(J.k<0) continue; // coprime: no walks, an entry only
      else { pairs++; const i64*hi=&H[(size_t)J.i*w],*ti=&T[(size_t)J.i*w],*hk=&H[(size_t)J.k*w],*tk=&T[(size_t)J.k*w];
        bool share=false; for(int x=0;x<w;x++){ i64 l=max(hi[x],hk[x]); p[x]=l-hi[x]+ti[x]; r[x]=l-hk[x]+tk[x]; if(p[x]&&r[x]) share=true; }
        if(gm&&share){ skipped++; continue; }
        if(ch){ for(int x=0;x<w;x++) lc[x]=max(hi[x],hk[x]); if(chain(lc.data(),J.i,J.k)){ dropped++; continue; } } }
      walk(p.data(),nullptr); walk(r.data(),nullptr);
      if(p!=r){ nontrivial++; Pt deg(m); for(int i=0;i<m;i++){ i64 v=p[n+i]; for(int j=0;j<n;j++) v+=A[i*n+j]*p[j]; deg[i]=v; } rem.push_back({deg,p}); rem.push_back({deg,r}); } }
    if(!rem.empty()){
      sort(rem.begin(),rem.end()); rem.erase(unique(rem.begin(),rem.end()),rem.end());
      vector<pair<Pt,Pt>> add; // head, tail
      for(size_t a=0;a<rem.size();){ size_t b=a; while(b<rem.size()&&rem[b].first==rem[a].first) b++; size_t best=a; for(size_t x=a;x<b;x++) if(cmp(rem[x].second.data(),rem[best].second.data())<0) best=x; for(size_t x=a;x<b;x++) if(x!=best) add.push_back({rem[x].second,rem[best].second}); a=b; }
      sort(add.begin(),add.end());
      if((int)(nm+add.size())>limit){ full=d; level=d-1; break; }
      for(auto&mv:add){ int kk=nm; push_move(mv.first.data(),mv.second.data(),d);
        if(gm){ // only pairs whose heads share a variable and whose tails share none
          Mask hm=maskof(&H[(size_t)kk*w]),tm=maskof(&T[(size_t)kk*w]); for(int i=0;i<kk;i++){ if(!hit(hm,HM[i])){ coprime++; continue; } if(hit(tm,TM[i])){ pairs++; skipped++; continue; }
            const i64*hi=&H[(size_t)i*w]; i64 g=G_[i]; for(int z=hs0[kk];z<hs0[kk+1];z++){ i64 e=hsV[z]-hi[hsI[z]]; if(e>0) g+=wt[hsI[z]]*e; }
            if(g<=GG) q[g].push_back({i,kk}); }
          HM.push_back(hm); TM.push_back(tm); continue; }
        // grade of lcm(i, k) = grade(i) + what k's support adds: column by column
        gr.assign(G_.begin(),G_.begin()+kk); shv.assign(kk,0);
        for(int z=hs0[kk];z<hs0[kk+1];z++){ const i64 v=hsV[z],wx=wt[hsI[z]]; const i64*col=HT[hsI[z]].data(); for(int i=0;i<kk;i++){ i64 e=v-col[i]; gr[i]+=e>0?wx*e:0; shv[i]|=col[i]>0; } }
        for(int x=0;x<w;x++) HT[x].push_back(mv.first[x]);
        for(int i=0;i<kk;i++){ i64 g=gr[i]; bool sh=shv[i]; if(!sh) coprime++; if(g<=GG) q[g].push_back({i,sh?kk:-1-kk}); else { auto it=q.find(g); if(it==q.end()){ if(q.empty()||q.rbegin()->first>g||q.rbegin()->first<=GG) { // keep only the least job grade above GG
                q[g].push_back({i,kk}); for(auto z=q.upper_bound(g); z!=q.end();) z=q.erase(z); } } } }
      } }
    if(led) done.insert(done.end(),jobs.begin(),jobs.end());
    hist.push_back({d,nm}); }
  double t2=now();
  if(pts){ points_mode(pts,GG,most); return 0; }
  if(led&&full<0){ // the ledger: every job again, walked with the finished list, as text
    FILE*f=fopen(led,"w"); vector<char> fb(1<<20); setvbuf(f,fb.data(),_IOFBF,fb.size()); string o="ledger 1\nsize "+to_string(m)+" "+to_string(n)+"\ngrade "+to_string(GG)+"\n";
    for(int k=0;k<nm;k++){ o+="move"; for(int x=0;x<w;x++) o+=" "+to_string(H[(size_t)k*w+x]); o+=" to"; for(int x=0;x<w;x++) o+=" "+to_string(T[(size_t)k*w+x]); o+="\n"; }
    auto wr=[&](vector<pair<int,i64>>&v){ if(v.empty()) o+="-"; for(size_t z=0;z<v.size();z++){ if(z) o+=" "; o+=to_string(v[z].first)+"*"+to_string(v[z].second); } };
    vector<pair<int,i64>> ra,rb;
    for(auto&J:done){ if(J.i<0){ o+="generator "+to_string(J.k+1)+" "; fill(p.begin(),p.end(),0); p[J.k]=1; fill(r.begin(),r.end(),0); for(int i=0;i<m;i++) r[n+i]=A[i*n+J.k]; }
      else if(J.k<0){ o+="pair "+to_string(J.i+1)+" "+to_string(-J.k)+" coprime\n"; continue; }
      else { o+="pair "+to_string(J.i+1)+" "+to_string(J.k+1)+" "; const i64*hi=&H[(size_t)J.i*w],*ti=&T[(size_t)J.i*w],*hk=&H[(size_t)J.k*w],*tk=&T[(size_t)J.k*w]; for(int x=0;x<w;x++){ i64 l=max(hi[x],hk[x]); p[x]=l-hi[x]+ti[x]; r[x]=l-hk[x]+tk[x]; } }
      ra.clear(); rb.clear(); walk(p.data(),&ra); walk(r.data(),&rb); if(p!=r){ fprintf(stderr,"ends differ\n"); return 1; }
      wr(ra); o+=" | "; wr(rb); o+="\n"; if(o.size()>1<<20){ fwrite(o.data(),1,o.size(),f); o.clear(); } }
    o+="end\n"; fwrite(o.data(),1,o.size(),f); fclose(f); fprintf(stderr,"ledger_s %.6f\n",now()-t2); }
  u64 csteps=steps, clook=lookups; steps=lookups=0;
  string out; out.reserve(1<<20); out+="report 1\n"; char buf[64]; size_t ri=0; u64 no=0,ni=0,nf=0; i128 total=0; size_t hi=0; double t3=now();
  int cur=0; auto lev=[&](int phs){ if(levels){ i64 G=phaseG[phs-1]; string L; if(full>=0&&full<=G) L=to_string(full-1); else { // Level(G): level of the version reached for G
        L= all?"all":to_string(level); } out+="level "+L+"\n"; } };
  for(hi=0;hi<heads.size();hi++){ auto[hp,hs]=heads[hi]; if(hs==0){ if(cur) lev(cur); cur=hp; out+="phase "+to_string(hp)+"\n"; continue; }
    out+="session "+to_string(hs)+"\n";
    for(;ri<reqs.size()&&reqs[ri].phase==hp&&reqs[ri].session==hs;ri++){ auto&R=reqs[ri]; i64 g=0; for(i64 x:R.b) g+=x;
      if(full>=0&&full<=g){ nf++; out+="full "+to_string(full)+"\n"; continue; }
      fill(p.begin(),p.end(),0); for(int i=0;i<m;i++) p[n+i]=R.b[i]; vector<pair<int,i64>> rec; walk(p.data(),walks?&rec:nullptr);
      i64 art=0; for(int i=n;i<w;i++) art+=p[i];
      if(art){ ni++; out+="infeasible short "+to_string(art)+"\n"; }
      else { no++; i128 v=0; for(int j=0;j<n;j++) v+=(i128)c[j]*p[j]; total+=v; out+="optimum "+s128(v)+" at"; for(int j=0;j<n;j++){ snprintf(buf,64," %lld",p[j]); out+=buf; } out+="\n"; }
      if(walks){ out+="walk"; if(rec.empty()) out+=" -"; for(auto&x:rec){ snprintf(buf,64," %d*%lld",x.first,x.second); out+=buf; } out+="\n"; } } }
  if(cur) lev(cur); out+="end\n";
  double t4=now(); if(!quiet) fwrite(out.data(),1,out.size(),stdout);
  fprintf(stderr,"read_s %.6f\ncomplete_s %.6f\nwalks_s %.6f\nmoves %d\nfull %lld\nlevel %s\ngenerators %llu\npairs %llu\nskipped %llu\ndropped %llu\ncoprime %llu\nnontrivial %llu\ncompletion_steps %llu\ncompletion_lookups %llu\nwalk_steps %llu\nwalk_lookups %llu\noptimum %llu\ninfeasible %llu\nfulls %llu\ncost %s\nlast_move_grade %lld\n",t1-t0,t2-t1,t4-t3,nm,full,all?"all":to_string(level).c_str(),gens,pairs,skipped,dropped,coprime,nontrivial,csteps,clook,steps,lookups,no,ni,nf,s128(total).c_str(),G_.empty()?0:G_.back());
  return 0; }
