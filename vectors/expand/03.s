#define M0(a, b) ( ( ADDQ ) )
	( M0(0x10 M0 (,+ MOVQ), ) ) MOVQ M0(M0 (8 M0(, AX),8), M0 (M0 ($ MOVQ,:) $,- M0(- ADDQ, ))) // a comment
#define M1 MOVQ M0 (,) 8
#define M2() M0(M0(BX R8, << .), .) M1 ( ( - ) ) ->
#define M3(a, b, c) b M1 M2() - M1
#ifndef M0
#ifndef M2
#ifdef M0
	M2() M2 () M3 (,,AX M1) M2() // a comment
	M2 () // a comment
	M1 M1 /* one */
#endif
	M1
#ifdef NONE
	$ // a comment
	M2() ( M3 (,M0(-, << <<),R8 M1) ) /* one */
	M1 M1 8 /* one */
#else
	M2() // a comment
#endif
#ifndef NONE
	M2 () /* one */
#else
	M0 (,) -> // a comment
#endif
#else
	M2() ( M0(M0(, ), ) ) . + /* one */
#endif
	M2() M2() // a comment
#ifndef M2
#ifndef M0
	M3 (+ M0 (MOVQ M3 (<< MOVQ,,),( BX ) M0(+, <<)),+ :,) ( M0(M3 (,ADDQ 8,), ADDQ) ) /* one */
#else
	( MOVQ ) - M1 /* one */
	+ M2 () M0 (,) M3 (M3(( 8 ), M3 (8 ->,+ AX,AX 0x10) +, ( AX )),,) M1
	R8 . M2 () M2() M1 /* one */
	M3 (,0x10,( M0(ADDQ, MOVQ) ) M1) ADDQ . /* one */
#endif
#else
	( MOVQ ) R8
#ifndef M0
	ADDQ // a comment
	M2()
#else
	M3 (M1,( 8 ) M2(),M3 (,R8,))
	R8 : -> /* one */
	$ // a comment
#endif
#endif
	M3(M2 () ( M1 ), , :) M1 : - M2 () /* one */
#else
	M1 /* one */
	$ M2() MOVQ M2() $ /* one */
	M0 (M0 (,( - )),M1 ( 8 )) - ( -> ) M1 // a comment
#endif
#ifndef M1
	. M2 () : .
	M0(, M1 M3 (,,M3 (,: AX,-) M1)) M2() << ADDQ -
	$
#endif
#define M4 M1
#define M5 M1 8 M0(BX ( 0x10 ), 8)
#define M6() 0x10 M4
	AX + M1
#define M7(a, b) \
 M5 a ( M1 )
#define M8() M0(, M7(, )) M5 ( M1 )
	0x10 R8 M8() // a comment
	M0(M1 ( M0(AX 0x10, ) ), BX ->) $ MOVQ /* one */
#define M9(a, b) ADDQ AX ADDQ \
 M8() 8
	$ 0x10 M7 (M2 (),<< M7(, )) /* one */
	M9(M9 (,M5) M3 (ADDQ,( ADDQ ),M0 (,MOVQ R8) M8 ()), M8 () M9 (,))
#define M10 \
 R8
#define M11(a, b, c) b . 8 \
 ( M1 )
	M7 (ADDQ,M7(, $ M10))
#define M12 M7(, M2 ()) M11(M11 ($ -,->,-) M0(, ), , M0(BX R8, $))
#define M13(a) 0x10 a
	: M2() 0x10 M8() // a comment
	M5 -> << // a comment
#define M14(a, b) 
#define M15(a, b, c) a a b M12
#ifdef M15
#ifndef M13
	M7(8 $, ) M5 -> ( << )
#endif
	( M5 ) M15(M14 (M13(AX),) +, , 0x10) 0x10 /* one */
#else
	M15(, -, M3(M8(), M1 M14 (,AX), M8())) ( ( M13(ADDQ) ) ) << M3(( M0(<<, ) ) 0x10, M1, ) AX
#ifndef M5
	M5 M4 MOVQ M4
	M5 // a comment
	M4 // a comment
#ifndef M12
	AX
#endif
#else
	$ // a comment
	M14 (M9 (M14 (-,.),.) M6(),8 ( M0 (,) )) + R8 /* one */
#ifndef M14
	M14(( ( << ) ) ( $ ), R8 R8) M7 (<< ( M8() ),M5) M14 (M13(M9 (,)) $,M15(, 8, ( $ ) M12) :) ( M7(, M0(, )) ) M0 ($ M11 (BX M3 (8 AX,BX,),8 M11(., , 8),M9 (:,ADDQ ->) M0(8, . :)),M12) /* one */
	M7 (AX M15 (M11 (+,,) M4,M11(-, BX <<, :) BX,),M12) M1 M7 (:,M12 M7 (,M8())) M9(M5, ) M11 (M12 ( M5 ),M11(, , 0x10 M5) :,M15(M15(, , . -), M9 (AX,MOVQ), M2 () -))
#endif
#endif
#endif
#ifndef M13
	M11(M9(M12 $, M15 (,BX +,<< 0x10) M5) ( M12 ), M12 M15 (BX,M3(AX, :, ),: M8 ()), ) -> M14($, ) /* one */
#endif
#define M16(a, b) M14(M13 (b) M1, )
#define M17 BX << ( M11(, , ) ) ADDQ
	M5
#define M18 M4 M2 () M14(- M5, ADDQ M13()) .
#define M19 M17 \
 M10 ( M7(, AX) )
	BX M0(M10, ) ( M19 ) M6 () M9 (,)
#ifndef M3
	AX M16 (M15(, <<, M0(MOVQ, 0x10 MOVQ)),M9(, ( : ))) M2()
#ifdef M16
#ifdef M9
	ADDQ M10 ( M14 (( R8 ),R8) )
	M3(M15(M6 (), M7 (8 AX,AX) M13($), ) 8, 8, M4) M19 M13(- 0x10) /* one */
	( ( M1 ) ) ( MOVQ ) M3(, ADDQ, ) M9(8 M4, ) 8 /* one */
	( M0(M18, M12) ) M6() BX // a comment
#endif
	ADDQ M9 (,M12 M9 (,)) // a comment
#else
#ifdef M9
	+ 0x10
	M12 M9 (M6() ADDQ,8) -> // a comment
	M3 (( M10 ) M5,,M10) M10 /* one */
#else
	0x10 AX M3 (,0x10,M16(, M11 (MOVQ $,+,ADDQ))) M5 // a comment
#endif
#ifndef M8
	M7 (-,) M16 (M15 (,:,ADDQ ADDQ),) M10 M6() M3 (<< M14 (R8 <<,),M0 (,M11(8, - ->, R8) +) M12,) // a comment
#endif
#ifndef M10
	M12 - M16 (ADDQ,M19 0x10) // a comment
	M19 M15 (M15 (M9 (,0x10 8) M8 (),R8 M5,) M18,,M6 ()) M14(M1, M9(, M18 M16 (ADDQ,)) M11(, , )) M11 (0x10 :,M17 M10,) /* one */
#else
	M14(8, ) M0 (- M8(),M5) 8 8 8 // a comment
	MOVQ
	M11(BX, ( BX ) ., M11 (( << ),,)) M18 -> // a comment
#endif
#endif
#endif
#ifdef M14
	M6() M18 M11 (M12,( M11 ($ ->,BX,8 BX) ) M7 (R8,M3(- MOVQ, 8 MOVQ, R8 $)),AX) M12 M7(, -> 0x10) // a comment
	. M13(-) M9(( ( 0x10 ) ), ) M3(M7(M8 () -, ( 8 ) M2 ()), , M3(, M2(), M3(->, ADDQ, ) M9 (BX AX,)) M4) M15(M1, , M11 (,M19 M3 (,,),$ +) R8)
#ifdef M14
	BX + M4 M13 () M7(M5 M15(, , ), $ M14(M3(MOVQ, , ADDQ), )) /* one */
#endif
	. /* one */
#else
#ifdef M10
#ifndef M2
	M8() ( M16 (,M2 ()) ) M10 BX /* one */
	8 M9(AX M18, ) M14(8, << M17) M12 R8
	( M3(, ( 0x10 ), M7(<<, AX -)) ) R8 M18 : ADDQ
#else
	M13 (M12 8) /* one */
	M13 (M5)
#endif
	M18 M11(M11(M18 M10, , ) MOVQ, MOVQ, ) M15(, ( M0 (+,) ), ) /* one */
	M3 (,,)
#else
	M7 (M10,) $ ( . )
#endif
#ifndef M2
#ifdef M2
	( M16 (,M3(, $ BX, )) ) - M4 /* one */
	( M7 (,8 BX) ) MOVQ M11 (M10,M3(BX, - BX, M6 () ->) +,$)
	M19 M7(M8(), AX) -
	M9 (M2 (),) ( M3(, M14(R8, ) ADDQ, ) ) M16 (,( 0x10 ) M10) MOVQ M0 (+,M8()) /* one */
#else
	- 8
#endif
#ifndef M13
	: M11 (,,M19 ( ( : ) )) M15(AX, $, )
	M19 M18 M4 + /* one */
#else
	M16(M11(M7(BX +, MOVQ), ( - ), M19 M11(-, , ADDQ BX)), ) M16 (M10,M16 (,M10 ( 8 )) M3 (AX,,: ( BX ))) . M6 () // a comment
	M11 (( ( $ ) ) AX,:,8) M14 (,) M14 (-,M9(M8(), ) M9(M14 (<< ->,), )) M18 M19 // a comment
	-> : : M6 () // a comment
	ADDQ R8
#endif
#endif
	M15(, <<, M1) ADDQ /* one */
	<< M12 : MOVQ /* one */
#endif
	: M1 ( M19 ) M18 /* one */
#define M20 M11 (. ADDQ,M2(),( . ) R8) M10 M4 M8 () +
#define M21() M18 M18 ( R8 ) ->
#ifdef M0
	M6 () M13(( M18 ) M13(M6())) -> -> M10
#ifndef M16
#ifndef M10
	: ( 8 ) -> 8 // a comment
	MOVQ M17 M3(, , M8 ()) M3 (-,M16 (M15(BX 8, :, AX) M11 (,,8),),M10 M12) M7 (- -,+) // a comment
	( BX ) M21() R8
#else
	M17
#endif
	: // a comment
#else
	M20 $ . M10 // a comment
	. ( << ) M12 /* one */
	M4 M6() R8 AX BX
	M17 ( M9(M16(, + +) R8, M12) ) M15(M11 (,,) M6 (), ( BX ) -, M18 M2()) M11 (,,) . /* one */
#endif
	M19 M16 (,MOVQ M0(M2(), M11(ADDQ, , 8) MOVQ)) - R8 /* one */
	R8 /* one */
#endif
	AX M17 M6 () M21 () // a comment
#ifndef M16
	0x10 BX
#ifdef M5
#ifndef M9
	M17 + 8
	<< M14 (( M21() ),) M14 (,) AX ( M6 () ) // a comment
#endif
#ifdef M18
	M20 M10 // a comment
#else
	M21() M3(, M18, $ ->) ( M11 (MOVQ,M9 (ADDQ,),<<) ) M2() R8 // a comment
	M4 M5
	$ $ M5 /* one */
	. ( 0x10 ) . // a comment
#endif
	ADDQ MOVQ . // a comment
#ifndef M15
	M7(M20 M8 (), M1 -) M3 (M1,M2 () M1,<< R8)
	BX M15 (M17 :,,( ( 8 ) )) M20
	M21() M5 /* one */
#else
	M4 M9(, M16 (,)) MOVQ ADDQ // a comment
#endif
#else
	M7(M3 (. M1,,M21 () M21()), . M14 (( BX ) 8,M5 :)) AX R8 M9 (M10,- <<)
#ifndef M15
	- R8 M11(M6() M8 (), M15(M2(), 8 M17, ), BX .) M0 (->,) M1 /* one */
	( M20 ) ( $ ) /* one */
	- ADDQ M7(<<, M16(M10 M20, M7(AX, ))) /* one */
	M2() M13 () M5 . M5
#else
	( M17 ) $ M13 ()
	M14(, M11(-> 0x10, R8, ) M21()) M6() M11 (,M8 () M0 (R8,),R8 R8) M11 (M0(->, ) ( M18 ),MOVQ,$ ( MOVQ ))
	: 0x10 M6 () // a comment
	M9(<<, ) M16(, . M15(M4, ( 0x10 ) ( - ), )) MOVQ + // a comment
#endif
#endif
	BX MOVQ M11(<< M7(M12, M5 M19), M20 M19, M21 ())
#endif
#define M22(a) - a \
 a M1
#define M23() \
 .
#ifdef M8
#ifdef M11
#ifndef M23
	+ - AX M13(M2() M23()) ( M13 (BX M1) )
	M15(( R8 ) M15 (,M15 (,-> ADDQ,$),( AX ) M9 (8,$)), M3(, ADDQ, $ .) BX, ) ->
#else
	( M21() ) M10 /* one */
#endif
#endif
	M21() // a comment
#else
	M21 () R8 M15(. ( M0 (,) ), ., ) M9(8 ( M10 ), M14(M0(R8 AX, ) ( -> ), ) M23()) M21 ()
	M6 () M14 (,) M4
#endif
	<< /* one */
#define M24(a) 
#undef M24
#define M25 \
 M9(M13 (ADDQ BX), ( 8 ) M4) M1
#define M26 ( M18 ) .
#ifndef M11
#ifndef M12
	M2 () 0x10 : R8 // a comment
#ifndef M25
	M13() ( M26 ) -> /* one */
	( + ) R8 M20 -> M19 // a comment
	M22(0x10 8) M13 (( M10 ) M3 (8 M25,( AX ),AX M2())) M20
#else
	<< M10 /* one */
	M25 ( M21() ) M9(BX, )
	AX << M2 () // a comment
	: ( M6 () ) M26 M4 // a comment
#endif
	AX M1 M26 M10 . // a comment
	M20 M12 M9(, ) MOVQ M9(, M22 (( : )))
#endif
#ifndef M25
	M16 (M12 BX,M15 (( BX ),,M1 M15($, , )) M2()) : M11(, ( ( $ ) ), ) M0 (M25,) ( M6() )
	M25
#else
	M21 () BX M15(M13(BX ADDQ) 0x10, , M11 (,,)) // a comment
#ifndef M1
	R8
	. M12 ( M16 (R8,BX) ) 8 /* one */
#else
	8 R8 ADDQ // a comment
	M10 M17 M20
	M4
	M16(M25 ., MOVQ R8) M26 M26
#endif
#endif
#else
	: M26 M12 /* one */
#ifdef M8
	M23() // a comment
#ifdef M14
	M3(, , ) AX M13 (M7 (,M25) MOVQ) // a comment
	- M12 // a comment
	. /* one */
#else
	M2 () . M6() M8 () /* one */
	M13 () : BX 8 M0(M7(( 0x10 ) M0 ($,), ( AX ) -) ( M22(R8 $) ), -> M13(M1 8)) // a comment
#endif
#ifndef M9
	M17 M23 () M22 (M4) ( << ) BX // a comment
	M7(, ) M10 M7 (BX ( MOVQ ),+ ( + )) M26 M6 () // a comment
	M22 (M13() ADDQ) /* one */
#else
	8
#endif
#endif
	M15(, ( M6 () ), :) M1 // a comment
	M10 M5 // a comment
#endif
	M8() ( . ) 0x10 ( M17 ) // a comment
#define M27 M6() M12 0x10
	- M2 () // a comment
#undef M27
	+ M9 (,) M16 (: ( M20 ),<<) M18
	M26 M1 BX M3(M17 M16(:, ), M10 MOVQ, M20) /* one */
#define M28 : \
 R8 ( M6() )
#define M29(a, b, c) R8 R8 M13 (b) .
