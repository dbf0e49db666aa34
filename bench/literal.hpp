// The rules of document 01, and of document 02's requests for covers, written down literally in C++ with 128-bit integers, unproved: what the benchmarks compare with.
#pragma once
#include <cstdint>
#include <cstdio>
#include <cstdlib>
#include <cstring>
#include <cmath>
#include <string>
#include <vector>
#include <set>
#include <sstream>
#include <iostream>
#include <utility>
#include <algorithm>
#include <chrono>

namespace literal {

typedef __int128 i128;
typedef unsigned __int128 u128;
typedef int64_t i64;
typedef uint64_t u64;
typedef std::vector<uint8_t> Bytes;

static const i64 K = 1048576;

struct Vec { i64 x, y, z; };
static inline bool operator==(const Vec&a,const Vec&b){return a.x==b.x&&a.y==b.y&&a.z==b.z;}
static inline Vec neg(const Vec&a){return Vec{-a.x,-a.y,-a.z};}
static inline Vec add(const Vec&a,const Vec&b){return Vec{a.x+b.x,a.y+b.y,a.z+b.z};}
static inline i128 dot(const Vec&a,const Vec&b){
    return (i128)a.x*b.x+(i128)a.y*b.y+(i128)a.z*b.z;
}
static inline i64 narrow(i128 v){            // every component we keep must fit i64
    if (v>(i128)INT64_MAX || v<(i128)INT64_MIN){fprintf(stderr,"narrow overflow\n");abort();}
    return (i64)v;
}
static inline Vec cross(const Vec&a,const Vec&b){
    return Vec{narrow((i128)a.y*b.z-(i128)a.z*b.y),
               narrow((i128)a.z*b.x-(i128)a.x*b.z),
               narrow((i128)a.x*b.y-(i128)a.y*b.x)};
}
// division truncating toward zero (C++ '/' does that)
static inline i64 tdiv(i128 a, i128 b){
    if (a<=(i128)INT64_MAX && a>=(i128)INT64_MIN && b<=(i128)INT64_MAX && b>=(i128)INT64_MIN)
        return (i64)a/(i64)b;
    return narrow(a/b);
}
// greatest n with n*n <= s (s >= 0)
static inline i64 isqrt(i128 s){
    i64 n=(i64)sqrtl((long double)s);
    while ((i128)n*n > s) n--;
    while ((i128)(n+1)*(n+1) <= s) n++;
    return n;
}
static inline i64 iabs(i64 a){return a<0?-a:a;}

static inline Vec Unit(const Vec&s){
    i64 n=isqrt(dot(s,s));
    if (n==0) return Vec{0,0,0};
    return Vec{tdiv((i128)K*s.x,n),tdiv((i128)K*s.y,n),tdiv((i128)K*s.z,n)};
}
static inline Vec Scale(const Vec&c){
    i64 m=std::max(iabs(c.x),std::max(iabs(c.y),iabs(c.z)));
    if (m==0) return Vec{0,0,0};
    return Vec{tdiv((i128)K*c.x,m),tdiv((i128)K*c.y,m),tdiv((i128)K*c.z,m)};
}
static inline bool is_vector(i64 x,i64 y,i64 z){
    if (x<-K||x>K||y<-K||y>K||z<-K||z>K) return false;
    i128 q=(i128)x*x+(i128)y*y+(i128)z*z;
    return q>=(i128)(K-2)*(K-2) && q<=(i128)(K+2)*(K+2);
}
static inline bool is_vector(const Vec&v){return is_vector(v.x,v.y,v.z);}

// ---------------------------------------------------------------- mesh
struct Trixel { Vec v[3]; Vec P[3]; };

// k = 0..7 : S0 S1 S2 S3 N0 N1 N2 N3 (identifiers 8..15)
static inline Trixel root(int k){
    static const Vec a[6]={{0,0,K},{K,0,0},{0,K,0},{-K,0,0},{0,-K,0},{0,0,-K}};
    static const int c[8][3]={{1,5,2},{2,5,3},{3,5,4},{4,5,1},
                              {1,0,4},{4,0,3},{3,0,2},{2,0,1}};
    Trixel t;
    for(int i=0;i<3;i++){t.v[i]=a[c[k][i]];t.P[i]=t.v[i];}
    return t;
}
struct Cut { Vec w[3]; Vec C[3]; };
static inline Cut cut(const Trixel&t){
    Cut q;
    q.w[0]=Unit(add(t.v[1],t.v[2]));
    q.w[1]=Unit(add(t.v[0],t.v[2]));
    q.w[2]=Unit(add(t.v[0],t.v[1]));
    q.C[0]=Scale(cross(q.w[2],q.w[1]));
    q.C[1]=Scale(cross(q.w[0],q.w[2]));
    q.C[2]=Scale(cross(q.w[1],q.w[0]));
    return q;
}
static inline Trixel child(const Trixel&t,const Cut&q,int k){
    switch(k){
    case 0: return Trixel{{t.v[0],q.w[2],q.w[1]},{q.C[0],t.P[1],t.P[2]}};
    case 1: return Trixel{{t.v[1],q.w[0],q.w[2]},{q.C[1],t.P[2],t.P[0]}};
    case 2: return Trixel{{t.v[2],q.w[1],q.w[0]},{q.C[2],t.P[0],t.P[1]}};
    default:return Trixel{{q.w[0],q.w[1],q.w[2]},{neg(q.C[0]),neg(q.C[1]),neg(q.C[2])}};
    }
}

// ---------------------------------------------------------------- identifiers and names
// depth of an identifier, 0 when it is none
static inline int id_depth(u64 id){
    int top=-1;
    for(int b=63;b>=0;b--) if((id>>b)&1){top=b;break;}
    if (top<3 || top%2==0) return 0;
    return (top-1)/2;
}
static inline int name_of(u64 id,std::string&out){
    int d=id_depth(id);
    if(!d) return 11;
    out.clear();
    out.push_back(((id>>(2*d))&1)?'N':'S');
    for(int k=d-1;k>=0;k--) out.push_back((char)('0'+((id>>(2*k))&3)));
    return 0;
}
static inline int id_of(const std::string&name,u64&id){
    if(name.size()<2||name.size()>32) return 11;
    u64 v;
    if(name[0]=='S') v=2; else if(name[0]=='N') v=3; else return 11;
    for(size_t i=1;i<name.size();i++){
        if(name[i]<'0'||name[i]>'3') return 11;
        v=v*4+(u64)(name[i]-'0');
    }
    id=v; return 0;
}
// the trixel of an identifier, depth 1..12
static inline int trixel_of(u64 id,Trixel&t){
    int d=id_depth(id);
    if(!d||d>12) return 11;
    t=root((int)((id>>(2*(d-1)))&7));
    for(int k=d-2;k>=0;k--){Cut q=cut(t);t=child(t,q,(int)((id>>(2*k))&3));}
    return 0;
}

// ---------------------------------------------------------------- lookup
static inline int lookup(i64 x,i64 y,i64 z,i64 depth,u64&id){
    if(depth<1||depth>12) return 5;
    if(!is_vector(x,y,z)) return 8;
    int k;
    if(z>=0){ if(x>=0) k = y>=0 ? 7 : 4; else k = y>=0 ? 6 : 5; }
    else    { if(x>=0) k = y>=0 ? 0 : 3; else k = y>=0 ? 1 : 2; }
    u64 r=8+(u64)k;
    Trixel t=root(k);
    Vec p{x,y,z};
    for(i64 d=1;d<depth;d++){
        Cut q=cut(t);
        int c;
        if(dot(q.C[0],p)>=0) c=0;
        else if(dot(q.C[1],p)>=0) c=1;
        else if(dot(q.C[2],p)>=0) c=2;
        else c=3;
        t=child(t,q,c);
        r=r*4+(u64)c;
    }
    id=r; return 0;
}

// a catalogue line: three decimals parted by one blank and closed by a line feed; the identifier, or minus the refusal
static inline bool decimal(const std::string&w,i64&v){
    size_t s = !w.empty()&&w[0]=='-' ? 1 : 0;
    if(w.size()<s+3||w.size()>s+9||(w[s]!='0'&&w[s]!='1')||w[s+1]!='.') return false;
    for(size_t k=s+2;k<w.size();k++) if(w[k]<'0'||w[k]>'9') return false;
    i64 power=1;
    for(size_t k=s+2;k<w.size();k++) power*=10;
    i64 n=(strtoll(w.substr(s,1).c_str(),nullptr,10)*power+strtoll(w.c_str()+s+2,nullptr,10))*K/power;
    v = s ? -n : n;
    return true;
}
static inline int64_t lookup_line(const std::string&l,i64 depth){
    if(depth<1||depth>12) return -5;
    i64 p[3];
    size_t at=0;
    for(int k=0;k<3;k++){
        size_t end=l.find(k<2?' ':'\n',at);
        if(end==std::string::npos||!decimal(l.substr(at,end-at),p[k])) return -13;
        at=end+1;
    }
    if(at!=l.size()) return -13;
    u64 id=0;
    int r=lookup(p[0],p[1],p[2],depth,id);
    return r ? -(int64_t)r : (int64_t)id;
}

// ---------------------------------------------------------------- region files and rows
struct Row { i64 c,x,y,z,d; };
struct Region { i64 depth=0,budget=0; std::vector<Row> rows; };

static inline uint32_t le16(const Bytes&b,size_t at){return b[at]|(uint32_t)b[at+1]<<8;}
static inline i64 le32s(const Bytes&b,size_t at){
    return (i64)(int32_t)((uint32_t)b[at]|(uint32_t)b[at+1]<<8|(uint32_t)b[at+2]<<16|(uint32_t)b[at+3]<<24);
}
static inline int read_file(const Bytes&f,Region&out){
    if(f.size()>10508) return 1;
    Region g; size_t at=0; bool first=true;
    i64 convexes=0, inconv=0, total=0, style=0;              // document 02, F-7: style 2 has kinds 2 and 3, style 5 kind 5
    for(;;){
        // 2
        if(f.size()-at<4) return 2;
        size_t len=le16(f,at); uint32_t kind=le16(f,at+2);
        if(len<4) return 2;
        if(len>f.size()-at) return 2;
        // 3
        if(kind<1||kind>5) return 3;
        static const size_t want[5]={0,8,4,20,4};
        if(kind<5&&len!=want[kind]) return 3;
        if(kind==5&&(len%16!=4||len<20||len>1604)) return 3;
        // 14
        i64 of=kind==2||kind==3?2:kind==5?5:0;
        if(style&&of&&of!=style) return 14;
        // 4
        if(first!=(kind==1)) return 4;
        if(kind==3&&convexes==0) return 4;
        if((kind==2||kind==4)&&convexes>0&&inconv==0) return 4;
        if(kind==4&&total==0) return 4;
        if(kind==4&&at+len!=f.size()) return 4;
        // 5, 6
        if(kind==1){
            g.depth=le16(f,at+4); g.budget=le16(f,at+6);
            if(g.depth<1||g.depth>12) return 5;
            if(g.budget>2048) return 6;
        }
        // 7
        if(kind==2&&convexes==64) return 7;
        if(kind==3&&(inconv==100||total==512)) return 7;
        if(kind==5&&(convexes==64||total+(i64)(len-4)/16>512)) return 7;
        if(kind==2||kind==5){convexes++;inconv=0;style=of;}
        // 8, 9
        if(kind==3||kind==5) for(size_t k=at+4;k<at+len;k+=16){
            Row r{convexes-1,le32s(f,k),le32s(f,k+4),le32s(f,k+8),le32s(f,k+12)};
            if(!is_vector(r.x,r.y,r.z)) return 8;
            if(r.d<-K||r.d>K) return 9;
            g.rows.push_back(r); inconv++; total++;
        }
        first=false; at+=len;
        if(kind==4){out=g;return 0;}
    }
}
static inline void put16(Bytes&b,u64 v){b.push_back((uint8_t)(v&255));b.push_back((uint8_t)((v>>8)&255));}
static inline void put32(Bytes&b,i64 v){uint32_t u=(uint32_t)(int32_t)v;for(int i=0;i<4;i++)b.push_back((uint8_t)(u>>(8*i)));}
static inline int write_file(i64 depth,i64 budget,const std::vector<i64>&list,Bytes&out){
    if(depth<1||depth>12) return 5;
    if(budget<0||budget>2048) return 6;
    if(list.empty()) return 4;
    if(list.size()%5) return 4;
    Bytes b;
    put16(b,8);put16(b,1);put16(b,(u64)depth);put16(b,(u64)budget);
    i64 prev=-1,inconv=0,total=0;
    for(size_t i=0;i<list.size();i+=5){
        i64 c=list[i],x=list[i+1],y=list[i+2],z=list[i+3],d=list[i+4];
        bool begins;
        if(i==0){ if(c!=0) return 4; begins=true; }
        else if(c==prev) begins=false;
        else if(c==prev+1) begins=true;
        else return 4;
        if(begins) inconv=0;
        inconv++; total++;
        if(c+1>64||inconv>100||total>512) return 7;
        if(!is_vector(x,y,z)) return 8;
        if(d<-K||d>K) return 9;
        if(begins){put16(b,4);put16(b,2);}
        put16(b,20);put16(b,3);put32(b,x);put32(b,y);put32(b,z);put32(b,d);
        prev=c;
    }
    put16(b,4);put16(b,4);
    out=b; return 0;
}

// ---------------------------------------------------------------- point test
static inline bool half_holds(const Row&h,const Vec&p){
    return dot(Vec{h.x,h.y,h.z},p) >= (i128)h.d*K;   // closed: document 02, F-5
}
static inline bool region_holds(const Region&g,const Vec&p){
    size_t i=0;
    while(i<g.rows.size()){
        i64 c=g.rows[i].c; bool all=true;
        for(;i<g.rows.size()&&g.rows[i].c==c;i++) if(!half_holds(g.rows[i],p)) all=false;
        if(all) return true;
    }
    return false;
}
static inline int holds(const Bytes&f,i64 x,i64 y,i64 z,bool&ans){
    Region g; int e=read_file(f,g); if(e) return e;
    if(!is_vector(x,y,z)) return 8;
    ans=region_holds(g,Vec{x,y,z}); return 0;
}

// ---------------------------------------------------------------- classifying
enum Class { OUTSIDE=0, PARTIAL=1, FULL=2 };
static inline const char* class_word(int c){return c==FULL?"full":c==PARTIAL?"partial":"outside";}

static inline u128 usq(i128 a){ if(a<0)a=-a; return (u128)a*(u128)a; } // |a| < 2^64 required

// the parts that depend on the trixel only
struct Geo { Vec P[3]; Vec r[3]; i128 V; u128 rr[3]; Vec b; i128 br[3]; bool brpos; i64 E; i128 bb; };

// greatest whole number up to K with br[i]^2 >= E^2 rr[i] for all i : by bisection, exact
static inline i64 E_bisect(const i128 br[3],const u128 rr[3]){
    i64 lo=0,hi=K;   // lo always satisfies
    while(lo<hi){
        i64 m=(lo+hi+1)/2; bool ok=true;
        for(int i=0;i<3;i++) if(usq(br[i])<(u128)m*(u128)m*rr[i]) ok=false;
        if(ok) lo=m; else hi=m-1;
    }
    return lo;
}
static inline i64 E_fast(const i128 br[3],const u128 rr[3]){ // same number, only for br[i]>0
    i64 E=K;
    for(int i=0;i<3;i++){
        u128 s=usq(br[i]);
        i64 e=(i64)((double)br[i]/sqrt((double)rr[i]));
        if(e>K) e=K;
        if(e<0) e=0;
        while(e>0 && (u128)e*(u128)e*rr[i]>s) e--;
        while(e<K && (u128)(e+1)*(u128)(e+1)*rr[i]<=s) e++;
        if(e<E) E=e;
    }
    return E;
}
static bool use_bisect=false;
static inline Geo geo(const Trixel&t){
    Geo g;
    for(int i=0;i<3;i++) g.P[i]=t.P[i];
    g.r[0]=cross(t.P[1],t.P[2]); g.r[1]=cross(t.P[2],t.P[0]); g.r[2]=cross(t.P[0],t.P[1]);
    g.V=dot(t.P[0],g.r[0]);
    g.b=Unit(add(add(t.v[0],t.v[1]),t.v[2]));
    g.bb=dot(g.b,g.b);
    g.brpos=true;
    for(int i=0;i<3;i++){
        g.rr[i]=(u128)dot(g.r[i],g.r[i]);
        g.br[i]=dot(g.b,g.r[i]);
        if(!(g.br[i]>0)) g.brpos=false;
    }
    g.E=0;
    if(g.V>0&&g.brpos) g.E = use_bisect?E_bisect(g.br,g.rr):E_fast(g.br,g.rr);
    return g;
}
static inline i64 D_of(i64 e){return tdiv((i128)e*K,K+2);}
static inline i64 G_of(i64 e){return tdiv((i128)e*K,K-2)+1;}

static inline bool within(const Geo&g,const Vec&f,i64 e){
    if(!(g.V>0)) return false;
    i64 G=G_of(e);
    for(int i=0;i<3;i++){
        i128 fr=dot(f,g.r[i]);
        if(!(fr>0)) return false;
        if(!(usq(fr)>=(u128)G*(u128)G*g.rr[i])) return false;
    }
    return true;
}
static inline bool by_cap(const Geo&g,const Vec&f,i64 e){
    if(!(g.V>0)) return false;
    if(!g.brpos) return false;
    i64 D=D_of(e);
    i128 c=dot(f,g.b);
    i128 m=(i128)D*g.E-c;
    if(!(m>0)) return false;
    i128 A=dot(f,f)-(i128)D*D, B=g.bb-(i128)g.E*g.E; // both fit 44 bits, product fits i128 with sign
    return (i128)m*m > A*B;
}
static inline bool beyond(const Geo&g,const Vec&f,i64 e){   // some edge: document 02, F-8
    i128 D=D_of(e), ff=dot(f,f);
    for(int i=0;i<3;i++){
        i128 fP=dot(f,g.P[i]), PP=dot(g.P[i],g.P[i]);
        if(fP<0 && PP*D*D+fP*fP > PP*ff) return true;
    }
    return false;
}
static inline bool apart(const Geo&g,const Vec&f,i64 e){return by_cap(g,f,e)||beyond(g,f,e);}
static inline int class_half(const Geo&g,const Row&h){
    Vec n{h.x,h.y,h.z};
    Vec f = h.d>=0 ? n : neg(n);
    i64 e = iabs(h.d);
    bool w=within(g,f,e);
    bool a=apart(g,f,e);
    if(w&&a){fprintf(stderr,"within and apart together\n");abort();}
    if(h.d>=0){ if(w) return FULL; if(a) return OUTSIDE; }
    else      { if(w) return OUTSIDE; if(a) return FULL; }
    return PARTIAL;
}
static inline int class_region(const Geo&g,const Region&reg){
    bool all_outside=true;
    size_t i=0;
    while(i<reg.rows.size()){
        i64 c=reg.rows[i].c; int cls=FULL;
        for(;i<reg.rows.size()&&reg.rows[i].c==c;i++){
            if(cls==OUTSIDE) continue;            // scan of this convex has ended
            int k=class_half(g,reg.rows[i]);
            if(k==OUTSIDE) cls=OUTSIDE;
            else if(k==PARTIAL) cls=PARTIAL;
        }
        if(cls==FULL) return FULL;
        if(cls!=OUTSIDE) all_outside=false;
    }
    return all_outside?OUTSIDE:PARTIAL;
}

// ---------------------------------------------------------------- the two lists
typedef std::pair<u64,u64> Range;
typedef std::vector<Range> Ranges;

struct Collect { const Region*reg; Ranges outer,inner; u64 seen=0,full=0,partial=0; u64 nonposV=0,nonposB=0; };
static inline void visit(Collect&c,u64 id,int d,const Trixel&t){
    Geo g=geo(t);
    c.seen++;
    if(!(g.V>0)) c.nonposV++;
    if(!g.brpos) c.nonposB++;
    int k=class_region(g,*c.reg);
    if(k==OUTSIDE) return;
    int D=(int)c.reg->depth;
    if(k==FULL||d==D){
        int s=2*(D-d);
        Range r(id<<s,((id+1)<<s)-1);
        c.outer.push_back(r);
        if(k==FULL){c.inner.push_back(r);c.full+=(u64)1<<s;} else c.partial++;
        return;
    }
    Cut q=cut(t);
    for(int i=0;i<4;i++) visit(c,id*4+(u64)i,d+1,child(t,q,i));
}
static inline Ranges join_touching(const Ranges&a){
    Ranges o;
    for(const Range&r:a){
        if(!o.empty()&&o.back().second+1==r.first) o.back().second=r.second;
        else o.push_back(r);
    }
    return o;
}
// the identifiers between two neighbours, and those of a range
static inline u64 gap(const Range&a,const Range&b){return b.first-a.second-1;}
static inline u64 size(const Range&a){return a.second-a.first+1;}
// literal: one join / one drop at a time; swallowed gains each gap that is joined over
static inline Ranges reduce_outer_naive(Ranges a,size_t budget,u64&swallowed){
    while(a.size()>budget){
        size_t best=0; u64 bg=0; bool have=false;
        for(size_t i=0;i+1<a.size();i++){
            u64 g=gap(a[i],a[i+1]);
            if(!have||g<bg){have=true;bg=g;best=i;}
        }
        swallowed+=bg;
        a[best].second=a[best+1].second;
        a.erase(a.begin()+(long)best+1);
    }
    return a;
}
static inline Ranges reduce_inner_naive(Ranges a,size_t budget){
    while(a.size()>budget){
        size_t best=0; u64 bl=0; bool have=false;
        for(size_t i=0;i<a.size();i++){
            u64 l=size(a[i]);
            if(!have||l<bl){have=true;bl=l;best=i;}
        }
        a.erase(a.begin()+(long)best);
    }
    return a;
}
// the same, with an ordered set to find the smallest / earliest quickly (long lists)
static inline Ranges reduce_outer_set(const Ranges&a,size_t budget,u64&swallowed){
    if(a.size()<=budget) return a;
    std::set<std::pair<u64,size_t>> q;             // (gap, position); gaps never change by joining
    for(size_t i=0;i+1<a.size();i++) q.insert({gap(a[i],a[i+1]),i});
    std::vector<char> joined(a.size(),0);
    size_t n=a.size();
    while(n>budget){auto it=q.begin();joined[it->second]=1;swallowed+=it->first;q.erase(it);n--;}
    Ranges o;
    for(size_t i=0;i<a.size();i++){
        if(i>0&&joined[i-1]) o.back().second=a[i].second; else o.push_back(a[i]);
    }
    return o;
}
static inline Ranges reduce_inner_set(const Ranges&a,size_t budget){
    if(a.size()<=budget) return a;
    std::set<std::pair<u64,size_t>> q;
    for(size_t i=0;i<a.size();i++) q.insert({size(a[i]),i});
    std::vector<char> gone(a.size(),0);
    size_t n=a.size();
    while(n>budget){auto it=q.begin();gone[it->second]=1;q.erase(it);n--;}
    Ranges o;
    for(size_t i=0;i<a.size();i++) if(!gone[i]) o.push_back(a[i]);
    return o;
}
struct Cover { Ranges outer,inner; u64 seen=0,full=0,partial=0,swallowed=0; size_t raw_outer=0,raw_inner=0; u64 nonposV=0,nonposB=0; };
static inline size_t eff_budget(i64 b){return b==0?16:(size_t)b;}   // document 02, F-2
static inline Cover cover_region(const Region&reg){
    Collect c; c.reg=&reg;
    for(int k=0;k<8;k++) visit(c,8+(u64)k,1,root(k));
    Cover o; o.seen=c.seen; o.full=c.full; o.partial=c.partial; o.nonposV=c.nonposV; o.nonposB=c.nonposB;
    Ranges a=join_touching(c.outer), b=join_touching(c.inner);
    o.raw_outer=a.size(); o.raw_inner=b.size();
    size_t B=eff_budget(reg.budget);
    if(a.size()<=3000) o.outer=reduce_outer_naive(a,B,o.swallowed); else o.outer=reduce_outer_set(a,B,o.swallowed);
    if(b.size()<=3000) o.inner=reduce_inner_naive(b,B); else o.inner=reduce_inner_set(b,B);
    return o;
}

// ---------------------------------------------------------------- the frames of a region: document 02, F-12
struct Entry { u64 id; uint32_t number,owner; Vec p; };              // in the order of an index: identifier, number, owner
static inline bool operator<(const Entry&a,const Entry&b){
    if(a.id!=b.id) return a.id<b.id;
    if(a.number!=b.number) return a.number<b.number;
    return a.owner<b.owner;
}
struct Frames { std::vector<uint32_t> numbers; u64 tests=0; };
// one owner's entries and the two lists side by side
static inline Frames frames(const Region&reg,const Cover&c,const std::vector<Entry>&entries,uint32_t owner){
    Frames f;
    size_t o=0,i=0;
    for(const Entry&e:entries){
        if(e.owner!=owner) continue;
        u64 id=e.id>>(2*(12-reg.depth));
        while(o<c.outer.size()&&c.outer[o].second<id) o++;
        while(i<c.inner.size()&&c.inner[i].second<id) i++;
        if(i<c.inner.size()&&c.inner[i].first<=id){f.numbers.push_back(e.number);continue;}
        if(o==c.outer.size()||c.outer[o].first>id) continue;
        f.tests++;
        if(region_holds(reg,e.p)) f.numbers.push_back(e.number);
    }
    return f;
}
static inline std::string cover_text(const Bytes&f,char sep){
    Region g; int e=read_file(f,g);
    if(e) return "refused "+std::to_string(e);
    Cover c=cover_region(g);
    std::string s="depth "+std::to_string(g.depth)+" outer "+std::to_string(c.outer.size())
        +" inner "+std::to_string(c.inner.size())+" seen "+std::to_string(c.seen)
        +" full "+std::to_string(c.full)+" partial "+std::to_string(c.partial)+" swallowed "+std::to_string(c.swallowed);
    std::string a,b;
    for(const Range&r:c.outer){name_of(r.first,a);name_of(r.second,b);s+=sep;s+="o "+a+" "+b;}
    for(const Range&r:c.inner){name_of(r.first,a);name_of(r.second,b);s+=sep;s+="i "+a+" "+b;}
    return s;
}

// ---------------------------------------------------------------- hex
static inline bool unhex(const std::string&s,Bytes&b){
    b.clear();
    if(s=="-") return true;
    if(s.size()%2) return false;
    for(size_t i=0;i<s.size();i+=2){
        int v=0;
        for(int j=0;j<2;j++){char c=s[i+(size_t)j];int d;
            if(c>='0'&&c<='9')d=c-'0';else if(c>='a'&&c<='f')d=c-'a'+10;else if(c>='A'&&c<='F')d=c-'A'+10;else return false;
            v=v*16+d;}
        b.push_back((uint8_t)v);
    }
    return true;
}
static inline std::string hex(const Bytes&b){
    static const char*h="0123456789abcdef"; std::string s;
    for(uint8_t c:b){s+=h[c>>4];s+=h[c&15];}
    return s.empty()?"-":s;
}
static inline std::string vtext(const Vec&v){return std::to_string(v.x)+" "+std::to_string(v.y)+" "+std::to_string(v.z);}

} // namespace literal
