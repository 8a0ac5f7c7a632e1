#define M0(a) ( ( : ) ) BX
#define M1() << ( M0 (AX :) )
#ifndef NONE
	M0(M0(M0 (.) M1())) M0 () MOVQ // a comment
	0x10 // a comment
#endif
#define M2(a, b) 
#undef M2
#define M3 \
 M1 () M0 (- M0()) M0() M0 (. AX) BX
#define M4 
#define M5 M0(M4) M0(M3 +)
#define M6(a, b, c) 
#define M7(a) a a 8
#define M8() M1 () M4 \
 0x10 M3 .
	( M8 () ) M1 () ADDQ $ M1 ()
	M3 M6 (M1(),M0(M6(BX, , MOVQ) M4),: <<) + M4 M8()
	M0 () : /* one */
	M1 () $
#define M9(a) 
#define M10 M0(M3 8) M7(M7(<< 8)) M7 (MOVQ)
	M7(M3) AX M7 () /* one */
#ifdef M8
	BX R8
	MOVQ M9(M3 M10) M8() M5 /* one */
#else
	( M5 ) << /* one */
	M5 M10 MOVQ /* one */
#ifndef M6
	BX M0(<<) M7 () // a comment
	( M5 ) . MOVQ M3 // a comment
#ifndef M10
	-> MOVQ
	M0(M5 M1()) /* one */
	:
#else
	( M4 ) ( M4 ) AX M6 (,,) // a comment
#endif
#endif
	M5 . 8 M6 (M4,M0(M9(-)),) /* one */
#endif
#define M11 M6(0x10, , )
#ifndef NONE
#ifdef M11
	( M10 ) : M10 M9 ()
	M0 ($) BX M9(M5) // a comment
#ifdef M4
	( M5 ) M3 +
	M4 M11 M6 (M4,BX ( : ),)
	M9 (BX ( << )) ( M4 ) M10 M1() << // a comment
	+ BX ( : ) /* one */
#else
	ADDQ
#endif
#ifdef M3
	M9() : ( << ) // a comment
	M4 M7 (M1 () M6(, M10, ( AX ))) M10 M7() /* one */
	M6(ADDQ, << R8, ) M6 (R8 ( 8 ),,BX) /* one */
	0x10 // a comment
#endif
#endif
#ifndef M5
	<< M1 ()
	M11 : ( ADDQ ) $ ( M3 ) // a comment
	M5 ( M6(( R8 ), , ( : )) ) 8 M0 (R8) 0x10 // a comment
#else
	$ R8 M8() M6 (M1(),,M8 ()) ( M10 ) // a comment
	8 << M4 M4 /* one */
	M9 () M8() // a comment
#ifdef M7
	M4 // a comment
	( M11 ) M8 () ( MOVQ ) ( M1() ) /* one */
	M8() ADDQ M1() M1() M4 // a comment
	0x10 M5 // a comment
#endif
#endif
#endif
#define M12 M3
#define M13 M1() M10 MOVQ M7()
#undef M13
	BX M7 (M3) - M5 M6(, , + M10)
	( M8() ) : M7(M9(M4 M6(:, +, + 0x10))) M3 M12
	M0(M10) $ M0 () MOVQ
#define M14() BX M1 () << M11 MOVQ
#define M15(a, b) a ADDQ M4 b AX
	ADDQ M8 ()
	( M4 ) ADDQ M4 M4 // a comment
#ifndef M0
	( M6(M10 M8 (), M5 ->, AX -) ) +
	M6(( $ ) M15 (( . ) 0x10,), M11, ) AX ( M5 ) /* one */
	ADDQ BX R8 M11
#endif
#define M16(a, b) 
#ifndef M10
#ifndef M5
	$ // a comment
#ifdef M15
	- M11 M6 (M7 (M14 ()) M4,,M6 (M8 (),,M5)) ( M1 () )
	0x10 + M8() // a comment
	AX // a comment
#else
	M10 BX ADDQ
#endif
#else
	M16(M0(), ) M12 /* one */
#endif
	0x10 M8 () M1() ( M5 ) M7(M8()) /* one */
	MOVQ : + ( M0() ) /* one */
#ifdef M0
	M14 () M9 () M6(., M6 (,M7 (-> -) M12,) M3, ) // a comment
#else
	- M8 () << M7 (8 M4) AX /* one */
#ifndef M3
	M0 (M0 ()) M14 () M3 /* one */
	M16 (.,)
#endif
#endif
#else
	M3 M15 (M8() M8 (),.) ( M1() ) 0x10 AX /* one */
	M3 /* one */
	( M16(M3, M11) ) // a comment
#endif
	M8() M0() /* one */
#define M17(a, b, c) a $ \
 c
#define M18(a, b) b - MOVQ a
	: M5 /* one */
#define M19(a, b) ( -> ) ( ( + ) ) \
 M18 (,) ADDQ ( R8 )
	M11 ( M16(M4 M8 (), ) ) ( . ) M1 () /* one */
#define M20() M1 ()
	R8 M7 (+ M0 ()) M3 $ . // a comment
#define M21 M16 (0x10,M10 M20()) MOVQ M15 (M18 (.,MOVQ +) M11,ADDQ 8) M1() AX
#undef M21
#define M22(a, b, c) M7(<<) M3
	M20 () M16(M7 (ADDQ) M0 (R8), M9(M12)) M5 // a comment
#define M23 M1 ()
#define M24() 
#define M25(a, b) M20() M19 (,( - )) a ( ( 8 ) )
#ifdef M22
	8 R8
	M3 BX : // a comment
	M4 M24() M7 (+) M16(MOVQ M22 (R8,,$), ) -> /* one */
#else
	( M20() ) << ADDQ M19(M7 (ADDQ M23) M20 (), ( << )) M11
	+ -> : M6 (,,M12 ->) /* one */
#ifndef M3
#ifdef M4
	M18 (,$) /* one */
	M15(MOVQ, ) MOVQ $ M25 (,+)
#endif
	M19 (,) ADDQ BX M9 (( M7 (AX 0x10) )) M25 (,M4)
	ADDQ M24 ()
#ifdef M6
	M14() 8 /* one */
	MOVQ /* one */
	M15 (M8() :,M17(, M14 (), 8) 0x10) $ M3 . // a comment
#else
	8 M19(+ 0x10, ( M3 )) . // a comment
	( 0x10 ) ( M19 (M11 M0(),M23 M3) ) M1 () ADDQ M1() /* one */
	M24 () . ( ( - ) ) M25 (,) M19(M24 (), M22 (,M23,M20 ()) AX) // a comment
#endif
#else
#ifdef M7
	M5 M7() M16(, M7 ()) M5 : // a comment
	M25 (( M6 (<<,,R8 ->) ),M12 M4) ( ( M18 (R8 ADDQ,) ) ) MOVQ /* one */
#else
	. M17(M0(M3 M18(, BX 0x10)) :, , M16(, ADDQ) ( M19 (,$) )) M18 (+,+ M15(M7 (8 BX), )) /* one */
	M16(, <<)
	$ << M12 M10
#endif
#ifdef M22
	M10 M12 ( ( M24() ) ) -> M0 (ADDQ) // a comment
	M25 (M14() M25 (( ADDQ ),ADDQ),M14 ()) M17 (BX R8,M7() MOVQ,. ( M1 () )) M8() M0 (M25(M0(<< :), M5) -)
	BX /* one */
#endif
#ifndef M10
	+ MOVQ M22 (,,M24 () $) // a comment
	: BX << // a comment
	->
#endif
#ifndef M8
	0x10
	ADDQ M24 () << M9(AX ( M12 )) // a comment
	M25(M0 (M3 :), ) M15(: R8, M25 ($ M10,M6($, , ))) AX M22(M22 (,M4 ( ADDQ ),ADDQ), M5, ) M25 (,M0 ()) /* one */
	0x10 M12
#endif
#endif
#endif
#define M26 - M1 ()
	M0 () M17 (M24 () 8,,M4) : // a comment
#define M27(a, b) a R8 . 0x10
	MOVQ // a comment
	BX MOVQ M3 8 /* one */
#undef M27
	M7 (M10) ( M17(<< ( + ), M9(BX), ) ) M9(M25(, M23)) M8 () M22(M17 (,M12,) M15 (,M9 () ( $ )), M17 (+ M10,M24() M14(),-) M23, R8 ( M11 )) // a comment
#ifndef M6
#ifndef M18
	M17 (->,- M23,) M26 M18 (,) M20 () /* one */
#ifndef M9
	M15 (MOVQ,M3) ( M17 (,ADDQ M11,) ) M10
	8 /* one */
#else
	R8 M12 // a comment
	BX M7 () ( + ) ADDQ /* one */
	M19 (M17(, M6(8, , ), M14 ()),R8) M24 () M5 MOVQ /* one */
#endif
	AX ( . ) + M1 () M26
#endif
#else
#ifndef M11
#ifndef M24
	M15(+, M10 M3) . M22 (M14() .,M10 .,: ( AX )) M17(M16(ADDQ M4, M18 (MOVQ $,AX $)) M19(, ), -> M6(BX, BX, M5 M7 ()), M19(-> MOVQ, M25 (- .,0x10) ->) ( ( << ) )) M19 (,) // a comment
	M23
	M18(M3 M7 (M23), M26) M18 (M20(),) M9 (M20 ()) M25(( ADDQ ) M5, )
	$ M1() // a comment
#else
	:
	M3 M5 // a comment
#endif
#endif
	MOVQ M18 (,) /* one */
#endif
#define M28(a) M24 () a ( a ) a a
	M15(M10 M22(, M7 () ( AX ), M20() M19 (0x10,0x10 BX)), M25 (,M3))
