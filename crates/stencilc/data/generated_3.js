{
  do for
  (
const
  bin ( function ( f ,static_ )
  { var b= (g =a
<< 𐐀q,f
  ,p1)=>{ var b  = y =>( d ) ++ >>>typeof ~ c ^ `\n${''
^ new g (g--
, d **=
( d =
  !
arguments ,x
  , p2)=> f   )
??
  this }${x }😀`&&
f &&g || this
. in ++ **static_
  **/* c */d&&
  +false
function e ( b = 12_3 ){ for (let g in b) try{let c= // c ) }
été;}
catch
  (d ){ do
e, null; while ( d);; ; } ;
}
  ; ;
  };
  ;; ;;}||
  null && d ||arguments&&eval ) )
{ } while // c ) }
( // c ) }
'\ud800');; ;   ;}
