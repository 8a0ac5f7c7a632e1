	( ( R8 ) ) /* one */
#ifdef NONE
	R8 // a comment
#ifdef NONE
#ifndef NONE
	( ( ( 0x10 ) ) ) R8 ( ( ( 8 ) ) ) ( ( -> ) )
#else
	( ( MOVQ ) ) 0x10
	( 0x10 ) /* one */
#endif
#ifdef NONE
	( ( : ) )
	( ( ( 0x10 ) ) ) ( MOVQ ) // a comment
#else
	( ( ( MOVQ ) ) ) ( ( ( 8 ) ) ) ( ( ( : ) ) ) 8 /* one */
	( ( : ) ) - /* one */
	( ( ( MOVQ ) ) ) : ADDQ ( ( AX ) ) -> /* one */
#endif
#else
	( R8 ) ( ( MOVQ ) ) BX /* one */
#ifdef NONE
	: ( ( ( << ) ) ) ( + ) ( ( ADDQ ) ) // a comment
#else
	MOVQ ( ( 8 ) ) ( ( ( ADDQ ) ) ) + ( ( ( AX ) ) ) // a comment
	( . ) ( ( ( . ) ) ) ( ( ( - ) ) ) /* one */
	ADDQ R8 ( ( ( R8 ) ) )
#endif
#ifdef NONE
	( ( ( 0x10 ) ) ) /* one */
	( ( + ) ) ( 8 ) ( BX ) ( ( ( -> ) ) ) ( ( ( MOVQ ) ) )
#endif
#endif
	( ( ( 0x10 ) ) ) ( ( ( MOVQ ) ) ) ( 0x10 )
#endif
	( ( MOVQ ) ) ( ( ADDQ ) ) ( ( ( << ) ) )
#define M0() \
 ADDQ MOVQ
#define M1() M0() -> ( M0() )
#define M2 \
 M0() 0x10 M0() ( M0 () )
#define M3(a) 8 \
 a + M2
#ifdef NONE
	. 0x10 M0 ()
#else
	( M2 ) 0x10 8 $ /* one */
#endif
#define M4 \
 8 M3(M0 () :) M0 () 0x10
	M3 () M2 // a comment
	M2 8 : M1 () M1 () // a comment
#define M5 ( ADDQ ) M2 \
 : M3 (M0()) M2
#define M6() M3 (M2) M3 (:)
#define M7 M4 M4
#define M8(a, b) 0x10 \
 R8 . $
	M7 /* one */
#ifndef M5
#ifdef M6
	AX ADDQ /* one */
	M4 /* one */
	M2 ( M8(->, M4 M7) ) M4 /* one */
#else
#ifndef M5
	M2 R8 /* one */
#endif
	<< - M1() M5 // a comment
#endif
	( M8(M3 (0x10 ->), - :) ) M6 ()
#ifdef M1
	M5 8 BX M2 M7 /* one */
#ifndef NONE
	M3(ADDQ ( M8(, $ 0x10) )) . -> R8
	M8(M5 M2, - M7) M3 ()
	M2 M0() - M6() // a comment
	M1 () : M5
#else
	M4 BX M1 () /* one */
	M8(M7 M0(), M4) . M1() M0() /* one */
	R8 M5 /* one */
#endif
#endif
#else
#ifndef M1
	M6 () M7 // a comment
#ifdef M5
	- M1 () M4 AX AX // a comment
	0x10 0x10 R8 M5
	. ( M3(M2 M5) ) ( M1 () ) M4 $
	M3 () 8
#else
	M5 - $ M3 (AX) M7
	AX ( M6 () ) M2
	M4 M4 M1() M0 () // a comment
#endif
	( M5 ) AX M1() M3 (MOVQ M7) // a comment
#ifndef M2
	M6 () M3 (M2) ( M7 ) M8 (M7 M2,.) M8 (,M3 () +) // a comment
	M2 M4 // a comment
#endif
#endif
	ADDQ M7 M2
	ADDQ 8 M3 (M8(M0() M4, M2) M2) /* one */
#endif
	$ M0() R8 // a comment
#define M9() M7 M2 ( + )
#ifndef M3
#ifndef NONE
#ifndef M1
	M7 ADDQ M7 << /* one */
	M7 M3 () :
#else
	( M7 ) -
	( M2 ) M8 ($,+ M9()) $ M7 // a comment
	M9 () M0 ()
#endif
	M0() M5 M5
	M9() $ M2 0x10 // a comment
#ifndef M8
	M0() M4 M7
	M9 () M9 () // a comment
#else
	0x10 ( M0() ) $ 8 // a comment
#endif
#else
	M2 M2
	M6() M3() /* one */
#endif
#else
	M3(M2) -> // a comment
	M3(<<) M6 () // a comment
#ifdef M8
	M9 () M6() ( ADDQ ) /* one */
#ifndef M2
	M1() /* one */
	M2 M8(, <<) $ ( -> ) ( M6 () ) /* one */
#endif
#ifndef M1
	: M9() R8 <<
	M0 () M0() AX ADDQ /* one */
	M2 // a comment
#endif
	AX M8(ADDQ, ) M4 /* one */
#else
	8 M9 () 8 M8 (M1 (),.) // a comment
#ifndef M6
	( - ) /* one */
	$ M7 ( M2 ) M1 () ( MOVQ ) /* one */
#endif
#endif
	<< M0() ( : ) /* one */
#endif
	M8(( : ), M6()) . // a comment
	R8 0x10 M3(AX M6 ()) M6 () . /* one */
#define M10(a, b, c) ( M3 (+ :) ) b MOVQ M9 ()
#define M11(a, b, c) 8 a b
#undef M11
#ifndef M3
#ifdef M2
	M0() M6 () ( M0() ) : /* one */
#ifndef M1
	- // a comment
	M6() /* one */
#else
	M4 // a comment
	M6() // a comment
#endif
	M6 () M7 M2
#else
	M9 () R8 BX
	-> // a comment
#ifdef M10
	M10 (M6 () 8,M4,M10(M7 M0 (), R8, )) - // a comment
#else
	- /* one */
	M3 (8) M6 ()
	M6() + M3() // a comment
	M2 /* one */
#endif
#endif
	( ( : ) ) /* one */
#else
#ifdef M7
#ifndef M8
	M5 M7 M1() AX
	M7
	M6 () M6() M9() M9 ()
	M2 : M2 M7
#else
	ADDQ ( M3(->) ) M2 /* one */
#endif
	BX /* one */
#ifdef M7
	M1() M7 MOVQ // a comment
	( ( ADDQ ) ) M0 () M9 () AX M7
	M1() M1 () M0() M1() AX
	<< -> M2 /* one */
#endif
#else
#ifdef M3
	AX M3 (M1 () M3 (( AX ))) M9 () AX $ /* one */
	( << ) << M6 () // a comment
#endif
	-> M9 () /* one */
	M10 (,,-) M10 (,,) : M4 << // a comment
	M4 0x10 // a comment
#endif
#endif
#undef M10
	( R8 )
	-> /* one */
#define M12(a, b, c) \
 c ->
#define M13 BX M2 R8 M5
	BX // a comment
#define M14(a) M7 a \
 -
#define M15 \
 ( 0x10 )
	( M2 ) M12 (,$ +,) /* one */
	AX M9() /* one */
#define M16(a) \
 M6 ()
#define M17(a, b, c) 
#define M18 \
 M13
#define M19() 
#define M20(a, b, c) b M13 c \
 -> c
	M8(BX M3(M19() M9()), ) ( ( - ) ) M4 /* one */
	M19 () M7 M19() M15 M4 // a comment
#define M21() 
#define M22() M6() M18
	M5 M1() M22()
#define M23 M2 M7
#define M24 M16 (M22 () M13) M13
#ifdef M22
#ifdef NONE
	$ M21 () M4 /* one */
	M5 M13 // a comment
	$ M15 ( - ) // a comment
	M24 M17 (M19(),,M15) M16() M5 // a comment
#else
#ifndef M19
	M13 8 ADDQ
	M17(, , ) M12(M2, M9(), ) /* one */
	: M21() R8 M2 /* one */
	M24 M24 M9()
#endif
	-> -> . BX
	M14(M24) BX M17 (( M20 (,,8) ) 8,-,M24 ( ( << ) )) M17(, M23 M15, ) /* one */
#ifndef M9
	8 ADDQ M15 : M7 /* one */
	M3 (M7) M5 ( AX ) M8(M13, 0x10 0x10) M20 (,M23 :,M24)
	M15 M2 : // a comment
#else
	M24 M7 ( M4 ) M12(, M6(), M2 +) -> // a comment
	M7 M21() << /* one */
#endif
#endif
#ifndef M3
#ifndef M7
	R8 M20(, , M9() M6 ()) M24 M1() M13 // a comment
	R8 M6() + : : /* one */
	M1() ( M20(M6() M18, , ) ) : M4 M1 () /* one */
	M14 (8 M24) M3 (M16())
#endif
	M9() M13 // a comment
#ifndef M6
	R8 M12 (-> M8 (,),M14 (M12(, : ADDQ, - BX)),M12 ($,M13,) M24) // a comment
	-> /* one */
	M13 M20(, M18 ( $ ), M4) /* one */
	M4 AX M2
#else
	BX M3() M1 () ( : ) M16(M16(M3 ()))
	M22 () M0() M14(AX BX) M19 ()
#endif
#ifdef M4
	<< M3(0x10 M18) M15 // a comment
	M22() // a comment
	M19()
#endif
#else
	M16 () .
#ifdef M0
	. M16($ MOVQ) ( ADDQ ) MOVQ /* one */
	$ ADDQ M24
	M23 M13 BX M16 (->) M6 () /* one */
	ADDQ ( M8 (M1(),M3()) )
#endif
#ifdef M13
	M2 M12 (,M22 () ( M12(+ ADDQ, 8 ., .) ),M0 ()) ( R8 ) M5 M0 ()
	-> M9 () M0 () ADDQ // a comment
	M21() /* one */
	M4 M15 ADDQ ( -> )
#endif
#endif
	( M6() ) M8 (,M24) M12 (M18,M9 (),) ADDQ M0 ()
#endif
#define M25(a, b, c) 0x10 ( AX ) b M8 (M14(-> AX),M20(, , ))
#define M26(a, b, c) a M0() 8 \
 ( AX )
#define M27(a, b) M18 M26 (MOVQ,- M19(),R8) - . ( M13 )
#undef M27
	R8 : M25 (( M13 ),M1 () -,( AX ) M1()) M7 /* one */
	M7
#define M28(a, b, c) a a
#define M29(a, b, c) 
#define M30 
#define M31(a) . a 0x10 \
 a
