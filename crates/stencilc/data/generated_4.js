switch (
get=>{
function x(
aa
  ,e )/* c */{{ function a ( x
  , f ,  g ){const b = [false .in, x -= b => g // c ) }
[
  255 [new b ].q*
{}& (null ? 128 : arguments & ++   d ) || 65535 .a -- && null
||y ]*= g, , c]; x: {while( arguments) var static_;/* 
 */  function b( x,
b ,
f)
{/* 
 */function f
( b/* 
 */  = 2147483648/* 
 */,p1 ,) {return/* c */null; ;   function c(a= 'a'){ } } ; ;;
} } ;;
  ; } ;
;;
  } ;
;
}}
  ){case 16777215
:
  ;; ;
case g
, false :; case // c ) }
  c: ; ; }