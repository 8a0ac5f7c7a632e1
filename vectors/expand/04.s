#define M0 ( ( 8 ) ) ( ( MOVQ ) ) ( ( AX ) ) R8 ( . )
#define M1() M0
	$ // a comment
	M1() . /* one */
	M1 () . BX /* one */
#define M2(a, b) M0 b
#define M3 ( M2($ :, ) ) : ( M1() )
#ifndef M1
	M1() R8 /* one */
#else
#ifndef M0
#ifndef M2
	. ( R8 ) ( R8 ) M3 /* one */
	M0 M3 /* one */
#else
	M1() M0 M1 () - M3 // a comment
	M0 M2(BX, M3) /* one */
	M1 () M1()
#endif
#ifndef M2
	8 AX /* one */
	$ // a comment
#else
	M0 /* one */
	- AX // a comment
	-> $ + // a comment
	M3 ADDQ R8
#endif
	M1 () M0 /* one */
#endif
#endif
	M3 BX BX MOVQ ( M3 ) // a comment
	( BX ) M2(0x10 0x10, ) // a comment
	( M1() ) M0 M2 (,) M1 ()
#define M4 8 M0 ->
#ifndef M3
#ifndef M1
	M1() M3 /* one */
	MOVQ MOVQ ( M0 ) M4 M0 // a comment
	M1 () ( - ) + // a comment
	M4 - ( M2 (M2 (,AX) ( $ ),) ) M4 ADDQ // a comment
#else
#ifndef M2
	( M0 ) // a comment
	M4 // a comment
#endif
	M3
#endif
	( R8 ) << /* one */
	<< M2(, M4 ->) /* one */
	M4 M1 () M4 // a comment
#endif
#define M5(a) a M2 (ADDQ 0x10,) M4 AX
#define M6 
#define M7(a, b) ( + ) a \
 a b b
#ifdef M2
	( << ) /* one */
	M3 0x10 M6 M4 M4
	M6 R8 // a comment
	AX M1 () BX
#else
	M7 (: 8,.) M7 ($ M6,. ( M4 )) M5 () ADDQ << /* one */
#endif
#define M8() \
 M5() M3 M1() ( M4 )
#define M9 M0 MOVQ M2(, M5 (:)) M1 ()
#define M10(a, b, c) \
 << $
#undef M10
#define M11() 8 .
	M1() M4 :
#define M12() 
	M3 R8 : M1 () M9
	M1()
	( M12() ) AX << M2(M0 ( ( -> ) ), AX M3) M2 (MOVQ R8,: ADDQ) // a comment
	( M5 (M6) ) MOVQ M5() M3 // a comment
	M8 () BX AX /* one */
	M3
#define M13(a, b, c) M8() b -> M2(( MOVQ ), 0x10) <<
#define M14() \
 ( M1() ) +
#ifdef M9
#ifdef M3
#ifndef M9
	M5 () . M9 // a comment
	( MOVQ ) M5 (BX M14()) ( AX ) // a comment
#else
	M5 () /* one */
	M2 (( M14() ),M4 M13(, , MOVQ)) . M3 M1 () MOVQ
#endif
#else
	MOVQ
	M6 M8 () : M12 () ADDQ // a comment
#endif
#else
	M11() ( M11 () ) ( M0 ) /* one */
	- M13(, M7 (,M7(MOVQ -, ) ( - )) M5(), .) M7 (M5 (M1 () $) M7(, M0),) AX /* one */
#endif
#define M15 8 M11()
#define M16 \
 ADDQ M6
#define M17(a, b, c) 
#ifndef M12
	M3
	M14 () M5() /* one */
	M4
#else
	M9 8 << // a comment
#ifndef M11
	- AX R8 // a comment
#else
	( BX ) $ /* one */
#endif
	M3 M0 8 0x10 // a comment
	M11() M16 -> /* one */
#endif
#define M18(a) $ ( -> ) MOVQ
	( M18 () ) M9 M0 -> M11 () // a comment
	M1 () M3 /* one */
	M18 () M6 /* one */
#define M19 BX + M12() M4
	( M1 () ) // a comment
#define M20(a, b, c) 
	M7(, $) // a comment
	<< /* one */
	M13(M4 M15, + M15, 8) ( M0 ) M19 M9 // a comment
	M6 /* one */
	AX - + +
	M15 // a comment
	M8 () BX M8 () M8() M20 (,M11 () .,AX) /* one */
#define M21(a, b, c) 
	M17 (M5(( << )),<<,) M8() R8 - M16
	M18 () // a comment
#ifndef M5
	M7 (M18() 0x10,M11()) M19 // a comment
#ifdef M18
	-> M12() 8 // a comment
#endif
#else
#ifdef M19
	M8 () 0x10 M12 () M5()
	M18 () - /* one */
	M16 M0 M14 () R8
	M15 M0 R8
#else
#ifdef M19
	M19 M16 R8 M3 8 // a comment
	( ( : ) ) + M12 () ADDQ M17(( << ) M18 (M15), M20(M12(), , M2 (8,8) ( . )), <<) // a comment
	BX M21 (( M20 (,,$) ),,) M12() M12() // a comment
	M15 + ( M4 ) $ M4 /* one */
#endif
	M5 () BX ( M0 ) M18 () M17(M11 () ., , ) // a comment
	M9 BX ( ( M11() ) ) M4
	( AX ) M11()
#endif
#ifdef M16
	M21 (M0,: M0,M8 () M18 (M2 (+,.) M1 ())) M9 - M1() BX // a comment
#else
#ifndef M6
	( ( M3 ) ) << /* one */
	AX /* one */
	M7 (( M5() ) M8(),) ( . ) . M13(+, BX, ) M17(R8, BX, M16) // a comment
#else
	M12() BX 0x10 M4 // a comment
	M17 (,( M13(<< BX, , ) ) M5(),M4) BX /* one */
	M0 M6 8 M14 () M3 // a comment
	M13(R8, , ) M8 ()
#endif
	MOVQ 0x10 ( M7 (<< R8,M11() M20 (: AX,,$)) ) M9 M18 () /* one */
#ifndef M4
	ADDQ M20 (AX,,M3 M14()) /* one */
	M4 M5(. M19) M14()
#else
	M7(M20 (( -> ),,M17(+ 8, 0x10 :, +) M16), AX BX) M8 () M3 M15 /* one */
	M11 () /* one */
	AX << M14 () -> + // a comment
	-> : ( M13 (: M5 (BX $),$ M15,) ) /* one */
#endif
#endif
	M6 - 8 M20 (,,M4) - // a comment
	: // a comment
#endif
#define M22() M14 () \
 ( ADDQ ) .
#ifdef M6
	M6 ( ( BX ) ) ( M1 () )
#ifdef M7
	( M22() ) M15 // a comment
#ifndef M5
	M7(M11() ( MOVQ ), ) // a comment
	R8 << /* one */
	( 0x10 ) M6 << : $
#else
	<< . /* one */
#endif
#else
	M6 MOVQ // a comment
#endif
	M13(M21(, M17 (,AX,), M17(0x10, 8 BX, :)), AX M12 (), M22 ()) /* one */
	( M22() ) M19 M7(AX ( AX ), M9) // a comment
#else
	BX // a comment
	M11() $
#endif
#ifdef M8
	M20 (M19,M2 (( AX ) M19,M13(BX, 8, )) M12 (),) M16 M0 /* one */
	AX M9
#endif
#define M23(a, b) M5(( MOVQ )) a \
 $
	( BX ) ( M2 ($ :,M19) ) /* one */
