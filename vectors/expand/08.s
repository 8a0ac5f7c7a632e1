#define M0(a) \
 a
	M0(M0(( 8 ))) M0 (M0(M0 () M0 ()) 0x10) /* one */
#ifdef M0
	AX - M0(( 8 )) ADDQ
#else
	M0 (M0 (-> +)) M0(M0()) 8 M0() /* one */
	AX M0(M0(M0() M0 ()))
#ifndef M0
	- M0() ADDQ $ /* one */
#ifdef NONE
	MOVQ
	M0(M0(M0() M0 (0x10 ADDQ))) M0() /* one */
	M0 (( : ) M0 (M0 (+ +) M0 ())) // a comment
	M0 (M0 (M0(ADDQ) M0()) :) $ -
#else
	+ R8 M0 (8 -) M0(+)
	M0 () BX M0 (M0()) 8 /* one */
	M0 (M0 (M0(- :)) ADDQ) $
	- BX
#endif
#else
	<< ( M0(AX) ) ADDQ M0 ($) M0 ()
	( M0 (M0(ADDQ <<) M0()) ) M0 (R8 M0 (<< <<)) << + M0(. M0 (( -> )))
#ifdef NONE
	M0() M0(M0 (. ADDQ)) -> 8 /* one */
	ADDQ M0($ $) M0(:) M0(8) ( M0(: M0 ()) ) /* one */
	M0(M0 (-) M0 (M0(ADDQ))) ( $ ) : M0(M0 () M0()) -> // a comment
	M0($ M0 (M0(R8 .) M0(.)))
#else
	8 M0 () -> $ /* one */
	R8 M0() $ BX /* one */
	R8 M0(M0(<< M0 (-> AX)) ADDQ) . :
	$ ( ( M0(- +) ) ) M0 (-) M0(M0 (( $ ) M0()) .) // a comment
#endif
#endif
#endif
#ifndef NONE
#ifndef M0
	( M0 (M0()) ) /* one */
#ifndef NONE
	M0(: MOVQ) M0 (-> +) 0x10 M0 () ( AX ) // a comment
	( - ) M0(M0 (M0 (ADDQ +))) M0(M0 (ADDQ M0 (AX $))) // a comment
	M0 () // a comment
#else
	M0(M0()) /* one */
#endif
	M0(M0(M0 (8 :) ->)) M0(( AX ) M0($))
#else
	M0(M0() :) M0() // a comment
#ifndef M0
	M0 (MOVQ) ( M0(MOVQ <<) ) AX ( M0 (M0 (.) $) ) // a comment
	M0 () BX M0 () M0() M0 (M0(+) M0 (( MOVQ ) <<)) /* one */
	R8 ( M0() ) M0 (M0(<<)) M0(<<) M0 () /* one */
	$ /* one */
#endif
#ifdef M0
	: - M0 (M0 (+) M0 (( 0x10 ) 8)) ( 0x10 ) /* one */
	+ /* one */
	0x10 M0 (-> BX) ( M0() ) M0(M0 (M0(-) ( AX ))) // a comment
	: -
#else
	M0 (M0 () M0(M0(: R8) M0(AX MOVQ))) M0(( M0(R8 ADDQ) )) 8
#endif
#ifdef NONE
	M0() : M0() // a comment
	M0(:) M0 (M0()) M0() M0 () M0(:) /* one */
	: $ 8 /* one */
#else
	$ /* one */
	M0 (M0()) MOVQ MOVQ // a comment
	( M0(M0($)) )
	M0 (8) M0 () M0 (M0 () ( M0(.) )) R8 /* one */
#endif
#endif
	M0(M0(ADDQ) M0 (( AX ))) // a comment
#else
#ifdef M0
	M0(8 M0(M0 () M0())) ( ( M0(+ $) ) ) + M0 (-> M0 ())
#ifdef M0
	8 0x10 /* one */
	( M0 (M0()) ) M0() MOVQ /* one */
	+ M0(AX) << -> /* one */
#else
	ADDQ M0(AX) ( : ) /* one */
#endif
#ifdef NONE
	+ // a comment
	M0 (M0 (- ->)) // a comment
	( 8 ) - // a comment
#else
	( + )
	ADDQ M0() M0 () <<
	AX /* one */
#endif
#ifdef M0
	R8 M0 (M0 (AX M0 (MOVQ)) 8) /* one */
	M0(M0(M0(+ +) M0 ()) ( R8 )) 8 M0($ M0()) M0 (M0(M0 (: +)) <<) ( M0() ) // a comment
	M0 (M0 (M0(8 MOVQ) M0 ())) ( M0(M0()) ) M0 (M0(MOVQ <<)) // a comment
	M0(( -> ) M0 ()) M0 (M0 (M0() -) M0(M0 (BX) M0())) M0() ( M0 () ) . // a comment
#else
	AX : M0(M0(M0 (ADDQ) M0 (MOVQ ADDQ)) ( ( - ) )) /* one */
	( << ) M0(( R8 )) M0 (M0()) - M0(M0 () BX) // a comment
#endif
#endif
	M0 (M0() M0()) ( AX ) M0 () M0 (R8 M0 (+ M0 (AX))) MOVQ // a comment
	( M0() ) M0(M0 () ( ( BX ) )) // a comment
#endif
#define M1 \
 M0(AX) 0x10
#define M2 M0() M0(M0 ())
	M1
#define M3(a, b) << \
 M1
#define M4(a, b, c) c a b
#define M5 M3(M1, M0(<<) M4 (,AX +,R8 BX)) 0x10 ( 0x10 ) M2 M2
#define M6() << :
#ifndef M6
#ifdef NONE
	+ M3 (,M1 M3 (( + ) ( . ),)) M2
#ifdef M3
	ADDQ M0 ($ MOVQ) M1 M5 . // a comment
#else
	( M3 (: R8,M4 (MOVQ ->,+ BX,R8) M0(0x10 -)) )
	M5 ADDQ /* one */
#endif
#endif
	0x10 M0 () M2
	0x10 AX M5 M0() /* one */
	M2 // a comment
#endif
#define M7(a, b, c) c AX c
#define M8(a, b) M4 (M7 (a,R8 ->,),( - ),ADDQ ->) M1 ( ADDQ ) M1
#define M9(a, b, c) M2 .
#define M10 \
 M8(M6(), ) 0x10 $
	M4(R8 M4(M0 (), M0 () M7(, <<, MOVQ), M1), M7(, ADDQ M6(), ), ) AX M9 (( 0x10 ),,M9 (M9 (8 .,,) :,0x10,. BX) M9 (0x10,M4(, ->, : +) M4 (,:,ADDQ),8)) ( M7(<<, , M9($ 0x10, , ) M5) ) M1 /* one */
	M1
#define M11() 8
#ifdef M4
	M9 (,0x10,) : /* one */
#ifndef M7
	:
#ifdef M5
	( M6() ) // a comment
	M11 () M6 () M8(: M2, M3 ($ BX,M2 :)) M0() /* one */
	0x10 R8 AX M1 -> // a comment
	M9 (( M5 ) <<,,M9(, , M6 ())) // a comment
#else
	+ 8 /* one */
	M3(M3 (AX M3 (MOVQ,ADDQ +),M2) M8 (M4(MOVQ ., -> BX, $ 0x10) M11(),0x10), ) ( M7(, , R8 M2) ) -
#endif
	M10 M4 (M1,,BX ( M2 )) M11 () // a comment
	. // a comment
#endif
#endif
	M1 M6 () AX M3 (M4(, , ),-)
#define M12() M0(M3(, 0x10) M3 (:,)) -> M8(, M8(ADDQ, )) M0(ADDQ M4(8 +, MOVQ, .))
#define M13() MOVQ M2
	M2 M6 () M7(, , ) // a comment
	M1 AX M4 (( AX ),,M13 ()) + :
#define M14(a) AX +
	( AX ) // a comment
#define M15() \
 R8 M6 ()
	ADDQ M9 (,M0 (M2 0x10),BX R8) M12() /* one */
#define M16() 
	M7 (( $ ) M2,M3(( R8 ), M4(: ., $, )) ( M2 ),M6 ()) ( ( M12() ) ) M12 () ( ( M7 (. R8,,AX +) ) )
#define M17 M11 () M14 (AX) M6() M12 ()
	M4 (,,M14 (AX)) ( M15() ) // a comment
	( + ) M5 M6() // a comment
	( ( M1 ) ) M15 () $ ADDQ M10 // a comment
#define M18 \
 MOVQ
#define M19(a, b, c) << BX \
 $ a
#define M20(a, b) BX << ( M13 () ) M4(a, , )
	M17 R8 M16 () ( M5 ) // a comment
#define M21(a, b) M6 () -> R8 - $
#define M22() M11() BX
#define M23(a) << ( ( a ) ) ( M10 )
#define M24 
	AX R8 0x10 <<
	-
#define M25(a) \
 ( M14 (R8 -) ) ( . ) a ( M4(, a, : MOVQ) )
#define M26(a, b) b -> ADDQ
#define M27 M14()
#define M28 
	<< 8 M10 .
	M21(0x10, ) M24
	M0() ( BX ) M0 () // a comment
	M9(M27 -, , ) MOVQ M24 M22 () M8 (M12(),( R8 )) /* one */
#define M29 \
 +
	M7(, AX, ) BX BX // a comment
#define M30 M6() ( M10 ) ( M25(-) ) M5
	M14(- M24) M26 (M1 ( M19 (MOVQ,BX -,) ),M12 ()) + M17 M16 () // a comment
#define M31(a, b) R8 0x10
	( M23 () ) /* one */
#define M32(a) \
 M21 (,M29 $)
