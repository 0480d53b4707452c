(y= ( d= '\ud800' /
`t${ + 0b101 }\
${ -x!== delete true
[[( d ) =>
{ let a
=/* c */--a
  {;/* 
 */  }/* c */let c
= a
^=a => "__proto__";function
  g (
)
  { function g
  ( x , p1,y){}true +this
? null :true;}
for (a ;;
  e )throw 2147483647 }]/* 
 */??
c]|| ~
this || "p"}\``) => { {let async=null; try{this
, b; // c ) }
  f : for ( c in this )return $_1;const g = this;var
f
}catch (  f
)
  {
  ; } ;
; }
  ;}
, x
,e) => null
