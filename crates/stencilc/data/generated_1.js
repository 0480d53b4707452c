var f=x +
  ~ new
`😀${
this [x]
  (
)
.  if && x&& [
(
... d
)=>/* 
 */  { function d
  ($_1
  , c)
{while ( ~ 'use strict'
)
try{continue
(/* 
 */  function() { } .
if ( )
(/* 
 */)); }catch{} }} , ][ `$${e **={d
, set"use strict" (e/* 
 */= [x=> { const c
  = a=> c =>function c( x
,c , y  = "length" ){}[aa] ++ %/* c */function y ( a ,
  get ,y) {
}
debugger; function g(c , ... await ) { // c ) }
} function
  g
  (b , x ) {}   function f(/* c */b, await
) // c ) }
{ }}
  ] ** // c ) }
  ~false )
  {for(this [ set ,
  '\n\t\0\x41\u0042\u{1F600}' ]
  in true)
  return arguments; eval
'\ud800';
  function a
  ( d ,b, e) {function
  b( x = static_ )
  {   function b( ...e ){ }/* 
 */  for (var b
  in g ){ function f () // c ) }
{} c : { g;let
  x =e;;
  } ;;}
; } ;; }} ,
length (
  )/* 
 */  { } ,
}
  ?? c   **true ** 16777215 }{` || x
  && c|| ++(/* 
 */  a)]
||
typeof 0
||
0X1f/* c */}\n` ( )|| --
g
  &&
this
  && false|| "it's"