	( ( ( -> ) ) ) ( BX ) ( AX ) /* one */
	( ( ( + ) ) ) $ // a comment
	.
	( 0x10 ) ( ( ( - ) ) ) /* one */
#ifdef NONE
	( ( ( ADDQ ) ) ) -> $ . : // a comment
#else
#ifndef NONE
#ifdef NONE
	( ( ( BX ) ) ) ( MOVQ ) ( ( ( + ) ) ) ( ( ( . ) ) )
#else
	( ( - ) ) ( ( $ ) ) ( + ) ( ( + ) ) ( ( ( . ) ) ) // a comment
	( ( ( R8 ) ) ) // a comment
#endif
	( ( ( . ) ) ) ( << ) // a comment
#endif
	( ( ( R8 ) ) ) ( ( ( + ) ) ) ( R8 ) /* one */
	( -> ) ( ( : ) ) - ( AX ) // a comment
#endif
	+
#define M0(a) 
	M0(( M0 (8 ADDQ) ) M0 (M0(8 MOVQ) ( MOVQ ))) M0 () M0(M0 (M0(+ $) M0(.)))
	: M0(( M0 ($) ) M0 ()) M0(M0 (->)) M0 (( 8 ) M0(M0 (8))) ADDQ // a comment
	: /* one */
	R8 . . /* one */
	( M0() ) /* one */
	-> M0($ +) // a comment
#define M1 M0(M0(.) M0 (MOVQ 0x10)) M0(M0 () M0()) M0() - ( : )
	M1 ( M1 ) M1 8 M1
	M0(( MOVQ )) M1 . /* one */
#define M2() ( -> ) M0(( ADDQ ) M1)
	R8 M0 () ( M2() ) ( M1 ) /* one */
#define M3() - M0(M0(-) R8)
#ifndef M0
	AX /* one */
#endif
	M3() M1 M2 () /* one */
#ifdef NONE
	M3() M2() BX M3 () // a comment
	M2() M2() 0x10 /* one */
#ifndef NONE
#ifndef M3
	M2()
#else
	M0() M2 () M2 () M1 /* one */
	R8 /* one */
	M3() ( M0 (M3()) ) M3 () -> M0(M1 M0(R8 BX))
	M0 ($) M0() ADDQ ( M1 ) /* one */
#endif
#ifdef M2
	M3 () .
	M3() // a comment
	M2() M3() M2 () M0(( ( . ) )) M1
	ADDQ
#endif
	-> M1 $ /* one */
#else
	- M0(M1 M3 ()) // a comment
#ifdef M1
	AX M3() M0(M3 ()) M1 /* one */
	: ( M1 ) : ( M1 ) M3 ()
#else
	+ ( M3 () ) R8 M1 M2() // a comment
#endif
#ifndef NONE
	M1 : M1 : MOVQ // a comment
#else
	( M0(M2() M3()) ) AX M0($) // a comment
	M1 M0(M3() M2 ()) M2 () /* one */
#endif
#endif
#ifndef M3
#ifndef M0
	M3 () ->
#else
	M1 /* one */
	M3() M1 M1 M3 () /* one */
	-> M1 /* one */
	M3() M2() M0() M1 M1
#endif
#ifdef NONE
	M1 // a comment
	M0(M3 ()) M2 () M1
#endif
#ifdef M0
	MOVQ M0 () M2 () AX // a comment
	( $ ) MOVQ M0() ( M2 () ) /* one */
#else
	M3() M0($) /* one */
	M0() M0() : M1
	AX M2 () ( M1 ) AX /* one */
	M1 R8 8 ( M3() ) M0 ()
#endif
#endif
#endif
#ifdef NONE
	M0(M0 (M3() M1)) /* one */
	M1 BX M0() M3 () BX /* one */
#endif
#ifdef NONE
	-> M0(M3 () M1) 0x10 M2()
#else
	M3 ()
	M1 M3 () ( M2() ) /* one */
	( ( - ) ) M1 $
	ADDQ /* one */
#endif
	8 M3 () $ // a comment
#define M4() \
 M3 () ( AX ) M1
	M0 (( R8 ) M4 ()) M3() 8 M1 /* one */
	M2 () M3() /* one */
#define M5(a, b) \
 M1
#define M6(a, b) M5 (b AX,M4 ()) R8 M1 8
#define M7(a) M2() M5(M4() -, a M4 ()) M2 () a
#ifdef M6
	M6 (,) . 8 0x10 M1 /* one */
#ifndef M6
	+ M5 (M7() M2(),( M3 () )) M6 (- -,M6 (M0 (MOVQ AX),M1 M7 (+ :)) M0(M3 ())) M0(8) M7 (M4()) // a comment
	8 M6(. M5(. M2 (), ), ) M3() /* one */
#ifndef M0
	M4 () M6(-, ADDQ BX) ( M1 ) M6 (( M5 (->,+ +) ),M5 (M5 (<<,R8 BX) M4(),R8) M1) M1 /* one */
#else
	M7 () /* one */
	M1 -> // a comment
	0x10 $ M6 (M6 (,M1 M5(ADDQ, 0x10)) M5 (M0 (),),) +
	AX ( $ ) M3() /* one */
#endif
#else
#ifdef M1
	M5 (M4 (),R8 M1) M2 () M5(M2 (), ) 0x10 /* one */
	M7(M2 () M1) M4 () ( M1 ) M2 () // a comment
	M4 () - M2 () // a comment
	M6(+ ( + ), M2()) M2() BX // a comment
#else
	M4 () ( : ) M4() + /* one */
	-> . M2() M4() M2() /* one */
	( M7() ) ->
	-> M4 () M3 () AX
#endif
#endif
#endif
#define M8 M0()
#define M9(a, b, c) 
#define M10 M0 (M8 M5 (AX,)) \
 M7 ()
#ifdef M10
#ifndef NONE
	M4() M4() // a comment
#endif
#endif
	M4() M1 0x10 AX // a comment
#define M11 \
 BX
	M4 () ( M9 (,M9 (+,,) M5(- 8, R8),$) ) M5 (M2() M10,) << ( M8 ) // a comment
#define M12 8 . \
 M2() AX
	M4() 0x10 M7() M9(M5 (,MOVQ), M3 (), .) M4 ()
#define M13(a, b, c) R8 M11
#define M14(a, b, c) :
	BX R8 M8 // a comment
	M5 (M8 ( M3() ),M0(M6(, : ADDQ) M8) M10) M9 (,,M5 (M10 0x10,M2() M1)) M5 (,BX +) /* one */
#define M15() M12
	<< M4() BX M5 (,<<) /* one */
#define M16(a, b) 
	M3() M16 (M6(, ),) $ MOVQ /* one */
	M8 M8 M3() ( 8 )
#define M17 \
 + ( M14 (R8,+ ADDQ,) ) AX
#define M18 ( M12 ) . -> BX
	M16(M12, ) // a comment
	M15() ( M2 () ) M0(M2 ()) M15()
#define M19 M18 BX M7(M9(-, , +)) + M10
	M3 () ( M9 ($,M10 M14(. +, , ),) ) ( M9 (M3 () ( ADDQ ),,) ) M9 ($,M7(-> M0(8 ->)),( << ) BX) /* one */
	AX << // a comment
#define M20(a, b) 
#undef M20
