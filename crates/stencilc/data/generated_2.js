
; function
  g(e, b
=g)
  {
function x( ...f/* 
 */) {
let y; function x (/* c */f  , a=   f=> { {function g
  ( c , x, b =`😀` (function( x/* 
 */=[
( y=
  (
e, f ,g , )/* c */=> {} , x ) => '' ?   - function
(f, x)/* c */{}
:
{new : -
  delete
  true[ y]^ +
  delete this . in !== + a
  } & g ,d
  ,d
  ,
] ,y ) {{}
function
  e ( c =
b , f = this ) {
const g
=b let d = " ";if(0x0 // c ) }
) {switch (
e) {case null
  :}var  c; ; do try{while( b){
}function b   ( ){}
  switch( // c ) }
b ){case
  g :arguments;var
x
= e; let c =
false; case g
: let e // c ) }
= 127
  var
x=
  y;case/* 
 */  false: ;}  }/* 
 */  catch(c ){ ; } while ( '' ); } else;
  ;; }
  ;
  } **this**y,c , null) .
length =e) {} }   ;;;} ,){ ;;
; } ;;/* 
 */;
  }
  ;;   ; }