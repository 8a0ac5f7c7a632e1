#define M0(a, b, c) ( b ) ( b ) ( b )
#define M1(a, b) AX -> \
 a b ( b )
#define M2() M1(M1(R8, 0x10 +) :, ) ( AX ) M1(M0(. ->, ADDQ 0x10, ) M0 (-> ->,: MOVQ,), )
#define M3(a) a
#define M4() - M1 (+,)
	M4 () M0(, 8 0x10, ( . ) ->) M1 (R8,M0 (<<,,M1(AX, -> R8) M2())) 8 /* one */
	<< M3(M2() M2()) 0x10 M2 () /* one */
#define M5(a, b) M0 (,b $,) BX M4 ()
	: M0(( BX ) BX, , ) << M0 (M4(),M1(, R8 M3(+ 8)) M2(),( + ) M3(<<)) /* one */
#define M6(a, b, c) - MOVQ b BX a
	M1(M5 (M1(R8, BX),M5(R8 $, ) ADDQ), ) M2() M0(, M2(), M2()) M1 (BX,)
#define M7() \
 M5 (M2 () M4(),$ R8)
#define M8(a) \
 -> a
#undef M8
#define M9() M4()
	M4 () : M6 (,( $ ) M6 (.,,<<),M9()) -> // a comment
#define M10(a) << + a -
#define M11() M5(- M10 (AX MOVQ), ) M9 () M4 ()
#ifdef M4
#ifndef NONE
#ifndef M1
	BX MOVQ -> // a comment
	( M11() ) M6 (M2 () ( 8 ),,M10(M0 (BX <<,:,8 +))) R8 ( M5(M11 () M4(), M9()) ) << /* one */
	M10(AX)
#endif
#ifdef M9
	: M5(, M1(( MOVQ ), +) M3 ()) ( M0(, M5 (+,) +, ) ) ( ( $ ) ) M3(M2()) /* one */
#endif
	M3 () << MOVQ ADDQ // a comment
	M6(M9 () ->, $, ) M1(M11 () ( AX ), ) . M4() /* one */
#endif
	M1(->, ( ( - ) )) ( M4 () ) M4 () /* one */
	M6 (M11(),M9() M2 (),M5(MOVQ, AX) M3 (-> M1 (,:))) MOVQ . M4 () ( MOVQ ) // a comment
#endif
#define M12 + ->
#define M13 .
	$ M0 (,,8 M10 (: M2())) MOVQ // a comment
	0x10 M2() 8 /* one */
#define M14 \
 M6(. M3 (. AX), ( : ) M12, << M11 ()) M9 () 0x10 8
#define M15() M1(M10(<<), << ( + )) M11 ()
#define M16(a, b) 
#ifdef M13
#ifndef M12
	M1(, M15()) MOVQ
#else
#ifndef M16
	( M9() ) ( M14 ) M2()
	M6 (( M1 (MOVQ,ADDQ MOVQ) ),M7(),:) MOVQ M12 /* one */
	MOVQ M10 () /* one */
	MOVQ M9 () AX ADDQ // a comment
#else
	M10 (M15 () M16 (( $ ),( - ))) M10 (M11() BX) M16 ($ ( M10 () ),M14) M2 () - // a comment
	R8 M14 M11() M9 () M6(M11(), + M3 (( . )), ) /* one */
#endif
#endif
	M3 (M7 () M12) << -> M3 (-)
	M4() M0 (M11() ( M2 () ),M10 (M12) M13,( R8 ) M4 ()) 0x10
	M6 (M15 (),,) M7 ()
#else
#ifndef M10
#ifndef M6
	( AX ) // a comment
#endif
	+ M7() M15() M11 ()
	M12 // a comment
	M0(, , ) M14 M1(BX, M0(M9(), ( + ) M6 ($ R8,,+ AX), ( 8 ) MOVQ)) // a comment
#else
	M2 () /* one */
#ifdef M13
	M15() /* one */
	ADDQ $ M15() R8 M6 (,M7 () ( -> ),) // a comment
	M11() :
#endif
#ifdef M10
	: M6 (,M4 (),) - M3(8) M1(: ( M9 () ), ) // a comment
#else
	( M12 ) ( ( M14 ) )
	-> << ( M13 )
	( . ) M3 () R8 M5(<< ( M5 (0x10 R8,) ), M10 (( 0x10 ) M10 ($ ADDQ)) 8) /* one */
#endif
#endif
#endif
#define M17() 
	M5(, M15 ()) M11() M7() /* one */
	M1 (M2(),) ( M0 (M2 (),M3(),M9 () ->) ) BX M10 (M2() M17 ()) M0(( M15 () ), M1(( << ) M17 (), M16(, -> $) ( $ )), M17() 0x10)
#define M18 M12 M12
	8 M2 () ( BX ) M6(:, , M10() M12) M7()
	M15() ( 0x10 ) M14 0x10 8 /* one */
#ifndef M6
	<< M17() MOVQ /* one */
	M15 () // a comment
	MOVQ M10 (( -> ) M14) M13 AX /* one */
#else
	8 +
#ifndef M9
	M11() M10 () // a comment
	ADDQ + // a comment
#endif
#ifndef M16
#ifdef M10
	<< M17() // a comment
#else
	M7 () ( M9() ) M7() M3 () M18 // a comment
	AX M4 () ( << ) M14 ( M7 () )
	M9() M5 (M13 8,M2 () M2()) M18 ( MOVQ ) // a comment
	. M13 /* one */
#endif
	( M14 ) M12
#ifndef M6
	$ : + // a comment
	-> M10 (<< M7()) 0x10 M16 (,) -> // a comment
#else
	M9() MOVQ M3($) ->
	( ( M4 () ) ) // a comment
	R8 // a comment
	MOVQ ( ADDQ ) M12 // a comment
#endif
#else
	R8 . : $
	M16 (,M5(M12, -)) M2 () M2 () M7()
	M12 M12 ( M9() ) /* one */
	( M7() ) M0 (,,AX M18) ( - ) R8 // a comment
#endif
#endif
#define M19() M11()
#ifndef M19
	ADDQ M2 () M0 (( $ ),.,) // a comment
#ifndef M18
#ifndef M3
	M10 (M3 () <<) // a comment
	M6 (,M16(, : M19 ()),) M10() BX ( M4() ) M14
	M9() M5 (M18 M1 (M15 () BX,M15()),M17 ()) $ ( M19 () ) M4() // a comment
	M19() // a comment
#else
	<< M6(M16(R8, ), R8, M14 ->) ( M15() ) M10(BX) /* one */
	M11 () ( M1 (,M18) ) M15() R8 M7 () /* one */
#endif
#else
	M0 (M6 (M4 (),M1(R8, ) M10(),( 0x10 ) <<),ADDQ M2(),M17()) M3() ( M16 (,M6 (. +,MOVQ :,) M19()) ) MOVQ -> /* one */
#ifndef M13
	$ M16(M5(, M0 (,ADDQ,) M7 ()) -, ) // a comment
	8 /* one */
#else
	M9 () << M10()
	( 0x10 ) M9 () + . M11() // a comment
	M12 M12 /* one */
	0x10 M17() + M12 // a comment
#endif
#ifdef M15
	M17() M17 () M0(ADDQ M12, ( ( R8 ) ), ) // a comment
	ADDQ M2 () M18 M9 () - // a comment
	M18 - M14 + M2()
#else
	8
	8 BX // a comment
	M14 ( M15 () )
	M1(, BX <<) // a comment
#endif
#endif
	M10 (M15()) 8 ( - )
	( M11 () ) M11() ->
#endif
	M16(, .) /* one */
#define M20 M4()
	: M14
#define M21(a) M0 (M19(),( R8 ) a,M14 M7()) R8
	M21(M6 (ADDQ BX,M1(, . $),( : )))
#define M22(a) ( a ) M4 () M1 (,0x10) ( M2() )
#define M23() ( R8 )
	M3 (BX M13) $ M7() M20
	. 0x10
#ifdef NONE
	M11() /* one */
#endif
#define M24 
#define M25() . ADDQ M3() M11 ()
	M17() ( . ) : BX // a comment
#define M26() \
 M14
	M6 (,:,MOVQ) << // a comment
#define M27(a) ( : ) ( $ )
#define M28 
#define M29(a, b) : << : \
 AX
#define M30 M0(M9 () M7(), , M1 (,:)) \
 BX R8
#define M31(a, b) ADDQ
#define M32 M1(- M12, M18)
	M17()
#define M33(a, b, c) 
#define M34(a, b) M12 ADDQ M16(( 8 ), M26 ())
