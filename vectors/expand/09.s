#define M0 MOVQ
#undef M0
#ifdef NONE
#ifndef NONE
#ifdef NONE
	( -> ) ADDQ BX << ADDQ /* one */
	( ( ( MOVQ ) ) ) MOVQ // a comment
#endif
	( . )
#else
#ifdef NONE
	( + )
	( 8 ) ( ( << ) ) ( ( ( MOVQ ) ) ) ( . ) ( ( MOVQ ) )
	BX ( ( . ) ) - ( . )
#else
	( - ) 8 // a comment
	( ( ( . ) ) ) ( ( ( MOVQ ) ) ) ( ( ( -> ) ) ) /* one */
	8 ( ( + ) ) ( $ ) ( ( R8 ) ) ( -> )
#endif
#endif
#ifdef NONE
#ifndef NONE
	( $ ) ( ( ( << ) ) ) ( ADDQ ) // a comment
	( ( - ) ) AX R8 - // a comment
#else
	( ( ( -> ) ) ) . ( ( ( 8 ) ) )
#endif
#ifndef NONE
	( ( ( + ) ) ) /* one */
#else
	( ( << ) ) ( ( ( : ) ) ) : ( ( BX ) ) ( - ) /* one */
#endif
#endif
	( ( 8 ) ) ( ( ( ADDQ ) ) ) ( ( ( MOVQ ) ) ) ADDQ ( MOVQ )
	( ( ( $ ) ) ) 0x10 BX ADDQ ( ( ADDQ ) ) // a comment
#else
	( ( ( + ) ) ) MOVQ /* one */
#endif
#define M1(a, b) 
	M1 (-,) AX M1 (8,) . /* one */
#define M2() M1(( 8 ), M1(-, 8 8)) M1 (,) AX
#define M3(a) ( : ) BX \
 -> M1(( . ) ->, M2 () a)
#define M4 M1 (8 ( - ),+ $) M2 ()
	M3 (R8 M4) R8 M4 M2() M3(( M3 () ) M1 (M2 (),))
#define M5(a, b, c) M1(M3() 0x10, ( + )) c b a
	M5 (AX,,) ( : ) R8 $ M1(, BX)
	M2 () : +
	M4 M4 M4 M2 () - // a comment
#define M6(a) a ( $ ) M2 () ( M1(, ) )
#define M7() \
 M6 (M3($) +)
#define M8 
#define M9(a, b, c) M2() M7 () \
 c
	$ + // a comment
	$ M5 (M9 (ADDQ,,:),M8,M7 ())
#define M10 ( M1 (8,-) ) AX ( M1 (- 0x10,+ AX) ) M9(M7 () M8, 0x10, ( : ) M8) M8
#define M11(a, b, c) b c
	M2 () M5(ADDQ, -> ( M6(+ $) ), ) << $ // a comment
#undef M11
	- M1 (M8 M7(),0x10) AX // a comment
	M2 () R8 M5(, AX, ) ADDQ .
#define M12(a, b, c) a :
#undef M12
#ifndef M7
#ifndef M2
	- ( M8 ) /* one */
#ifndef M2
	M6() ADDQ M1 (( : ),) /* one */
	( M10 ) /* one */
	M5 (,( M2() ),M1(- M7(), R8 ( 8 )) M9(, , M1(ADDQ, R8 MOVQ))) M6(M6(M4 BX)) // a comment
	M1(BX M5(M9(, BX ADDQ, ) M3 (R8 ADDQ), -> AX, ), M3 (R8) ( M10 )) M6 (M4 :) + M10
#else
	M5(M10, , ) M7()
	M2 () M6 () M5(, M7() 8, )
	$ M2 () $ - -> // a comment
	( - ) << M8 M1(M1(8, ), ) // a comment
#endif
	( R8 ) M1(M3 (M6 (R8)) ( << ), M8) M2 () <<
#else
#ifdef M8
	. M2 () // a comment
	( M10 ) 8 M6(( M3() )) M4
	M3 (-) $ AX M9 (,,) +
#else
	M2()
	. M8 M6(M1(, M10)) /* one */
	M9(M8 :, M2 (), M9(M1(- +, MOVQ <<) M2(), M9 (,BX,<< +) BX, )) M9(, , M7() M1 (,)) BX
	MOVQ // a comment
#endif
#endif
	ADDQ M10 M4 ( M1 (M8,BX M5(8, << ADDQ, .)) )
	M9 (( M2() ),,) M7 () // a comment
	+ << /* one */
#else
	R8
#ifdef NONE
	M8 /* one */
#else
	M6(M9 (-> M8,,) 8) : M3 () -> /* one */
#ifndef M3
	M3 (M10) ( M1(M2() ( << ), AX .) ) M7 () M2() /* one */
#endif
	M7() M2() // a comment
#endif
#endif
#define M13(a) M9 (8,BX ( R8 ),) M10
#define M14(a) \
 a ( ( $ ) )
#define M15(a, b, c) a \
 8 c M4
	( M8 ) ADDQ M15(M7() ( ( 8 ) ), M13 (M5 (AX 0x10,BX :,. ->) M6()), ADDQ) M4 ADDQ /* one */
#define M16(a, b, c) M8 M7 () ( $ ) : c
#define M17(a) \
 M4
	BX ( << ) M6 (M8 M6 (ADDQ)) MOVQ M5(( $ ) 8, , ) /* one */
#define M18(a, b, c) 
	M3(: <<) ( M10 ) M4 : /* one */
#define M19() M15 (M8 M15(0x10, - 8, ),M3() 0x10,) M2 () \
 R8
#ifdef NONE
	M6(M9(, MOVQ, + ( R8 )) M17 (M6 ($ 0x10))) AX $ . // a comment
#ifdef M7
	M3 (+) // a comment
#ifdef M9
	0x10 M3 (. :)
	M19 () 8 M6 () M1 (,) // a comment
	( . ) - 0x10
	M10 + M18 (M15(->, : 8, M3 () AX),M1 (,) M6(),) ( BX ) // a comment
#else
	AX /* one */
	M4 BX M13 (M18 (M5 (+ :,<<,-) AX,,) M2 ()) ( : ) BX // a comment
	ADDQ ( M8 ) M4
	M14() + M18 (( M13($ $) ),M18(, M1(<< <<, ->) ( $ ), 8 BX) M10,)
#endif
	M13 (M15(M13 () <<, ( ADDQ ) ->, )) M19 () /* one */
#endif
#ifndef NONE
	M7() <<
	M19() -> /* one */
	M17(M13 ()) ->
#endif
#else
	M4 M1(M9(, M18 (R8,:,8 $) BX, M10) M17(), ( 8 ) M16 (,-> +,)) M14(( M1 (0x10,-> <<) )) M19() M9 (M13 (: M15 (+,. BX,<<)) M16(M6(), M16 (MOVQ R8,0x10 .,.), M6(BX $)),$,) // a comment
#endif
#define M20 - ( - )
#define M21() - M3(M15 (->,<<,MOVQ +) ( 8 ))
#undef M21
#undef M20
#undef M19
#ifdef NONE
#ifdef M14
	-> MOVQ M13 () ( M9 (AX ( << ),,M2 ()) ) /* one */
	M5(: :, , ( : ) M18 (8 -,,)) M7() M7() M9(. M18(, , ( AX )), 0x10, M2() ( + )) M17(M5 (+ ->,M16(0x10, +, ),)) /* one */
#else
	M9(M15(<< 0x10, + M17 (BX), M13 (ADDQ) M10), M8, ) M2 ()
#endif
#ifndef M8
	BX $ :
#else
	M15 (,,M15(, , ) M18 (.,M14(+),)) 0x10 M2 () . M3 ()
	M9(, , ) M17 () ( ( M18 (+,,) ) ) // a comment
#endif
	M9(+ M9 (8 ( . ),,8 M1 (,: 0x10)), ( M15(<<, , : .) ), M15 (ADDQ,M1(MOVQ ->, + AX) M8,BX)) << R8 M1 (,M5(, ->, AX) 8)
#endif
#define M22(a) M10 -
#ifndef M16
#ifdef M14
#ifdef M16
	M6(8) : M8 M3(AX ( M3(.) )) M4 // a comment
#else
	: M8 M10 // a comment
	8 /* one */
#endif
#endif
	R8 ( M15(M4, ( $ ) AX, $) ) M9(M6 (( ADDQ ) M10) ADDQ, M1 (,-> ->), ) 0x10 << /* one */
#ifndef M18
#ifdef M17
	M13(M8 BX) // a comment
#else
	( M6 (ADDQ +) ) 0x10 R8 R8 0x10
	M16 (AX,( - ) M3(M10),M18 (M5 (AX,ADDQ 8,) M10,M18 (,,R8 +) .,) M6(M16(AX, R8, ))) // a comment
#endif
#else
	M6 (M7 ()) AX M10 ( M7 () )
	- // a comment
#ifndef M7
	ADDQ 0x10
#else
	( M13 () ) M14(M14(M15 (:,8,0x10 -) <<) ( BX )) << ( M9 (M2() BX,M8,) ) // a comment
	: <<
	+ $ /* one */
#endif
#endif
#else
	<< $ M3(M18 (M7 (),,( -> ) +)) R8 M8 /* one */
#ifdef M2
	M7() M3() M9(M17 () M13(M8 M4), , ) ADDQ $
#endif
	M18(M3(M3(-)) M1 (-,M2()), AX, M17 ()) + /* one */
#ifndef M2
#ifndef M8
	M1 (,) AX - /* one */
#else
	M9 (,M4,) M10 M22(M18(M4 R8, ( R8 ) M16 (R8,<< -,-), M13(R8 .))) M5 (: M13 (R8),,( ( AX ) ) MOVQ) /* one */
	( M10 ) M7() R8 // a comment
	-> M4 M2 () $ << // a comment
#endif
#else
	M2() $ -> // a comment
#endif
#endif
	M4 M2() BX /* one */
#define M23(a, b, c) c -> a c
	$ M10 M1(M15(M5 (R8 ->,,+) ( R8 ), , M14(:)), M3 ())
#define M24(a, b, c) 
#define M25(a, b) 
#define M26(a) BX
#define M27 AX
#define M28() M8 AX M2() M22(M13 () M18(, R8 ., ))
#define M29 
#define M30 <<
	M2 () M2 ()
	( M25(, ) ) ( M7() ) /* one */
