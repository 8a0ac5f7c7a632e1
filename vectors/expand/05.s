#ifdef NONE
	ADDQ
#ifndef NONE
	( ( 8 ) ) ( AX )
#endif
	MOVQ
#ifdef NONE
#ifdef NONE
	8 ( ( ( ADDQ ) ) ) /* one */
	- ( $ ) ( ( ( AX ) ) ) // a comment
#else
	MOVQ $ MOVQ
	( ( ( AX ) ) ) ( ADDQ ) . $ /* one */
#endif
	ADDQ ( $ ) MOVQ /* one */
#else
#ifdef NONE
	( R8 ) ( ( ( 0x10 ) ) ) ( ( + ) ) MOVQ ( ( 0x10 ) ) // a comment
	( : ) ( ( AX ) ) - : /* one */
	( ( ( AX ) ) ) // a comment
#else
	<< 0x10 ( ( ADDQ ) ) ( AX ) /* one */
	AX ( ( . ) ) ( ( $ ) ) : /* one */
#endif
#endif
#else
#ifndef NONE
	$ ( ( ( R8 ) ) ) ( ( ( : ) ) ) /* one */
	( . ) ( AX ) << // a comment
	( ( ( . ) ) ) ( << ) 8 // a comment
#else
#ifdef NONE
	( BX ) AX ( ( ( MOVQ ) ) ) ADDQ ( ( ( 0x10 ) ) )
	ADDQ ( ( MOVQ ) ) ( . ) ( ( $ ) ) // a comment
#endif
	( ( R8 ) ) // a comment
	( ( ( AX ) ) ) ( ( AX ) ) ( ( MOVQ ) ) ( ( + ) )
#ifndef NONE
	( 8 ) ( AX ) ( ( 0x10 ) ) ( ( R8 ) )
	( ( 0x10 ) ) ( ( ( 0x10 ) ) ) ( ( -> ) ) // a comment
	( << ) R8
	+ ( ( ADDQ ) ) ( ( ( - ) ) ) ( ( ( << ) ) ) AX // a comment
#else
	ADDQ + ( ( - ) ) ( : ) /* one */
	. ( ( BX ) ) 0x10 ADDQ /* one */
	8 // a comment
#endif
#endif
	AX ( 0x10 ) + ( ( ADDQ ) ) /* one */
	: // a comment
#endif
	8 MOVQ ( ( ( ADDQ ) ) ) AX // a comment
	( ( ( - ) ) ) ( ( << ) ) ( ( ( - ) ) ) ( ( ( 0x10 ) ) ) /* one */
#define M0(a, b, c) AX AX
	M0(M0 (R8,-> M0(AX, , $ :),), M0(ADDQ, M0 (,,BX) M0(, , $ R8), -> M0(: :, $, - AX)), ) M0 ($,,M0(M0 (,,$ .), , M0 (,MOVQ,$) M0 (0x10 AX,,0x10 <<))) ( - ) M0(M0 (M0 (,,),,( R8 ) M0(8, , )) -, <<, ) ADDQ // a comment
	( M0(, 0x10, ( BX )) ) M0 (,M0 (,,AX ( BX )) M0(M0 (<< ->,.,), , M0(AX, BX ->, :)),M0 (ADDQ,,8) ( : ))
#define M1 M0(M0(->, $, ) M0 (MOVQ ->,MOVQ AX,R8), M0(, $, ) ( ADDQ ), M0 (0x10 8,$,0x10)) \
 M0 (M0(AX 8, MOVQ -, ) 8,M0(, $, ),) .
#define M2 0x10
#define M3(a) 
	-> M3 (( 8 ) ADDQ) // a comment
#ifndef M1
#ifndef M0
	M0(M3 (MOVQ) M2, M0 (( << ),M0 (BX,,),R8 <<), ( ( ADDQ ) ) BX) 8 M0 (M1 +,,( M0(<< $, , ) ) M2) M1 /* one */
#ifdef M3
	( ( ( 8 ) ) ) /* one */
	M1 M2 // a comment
#else
	M0(( ( BX ) ), ( ( << ) ), ) M0 (M3 (M1 -),MOVQ,) M2 M0(<< M1, + :, )
	M2 M0(, 0x10, M2)
	M2 ADDQ M2 M3 (BX)
#endif
#ifndef M2
	M2 /* one */
#endif
#ifdef M3
	M0 (,+,M1) M1 // a comment
	M0(, , MOVQ) M3(M1 M3()) M3(M1 M3(: ( MOVQ ))) ->
#endif
#endif
#endif
#define M4 M1 M0 (M3(),M0 (-> 0x10,,),)
#define M5 $ ( M1 ) M2 MOVQ M3()
#define M6 M5
#define M7 \
 M2 M3(( BX ) AX) M5 M1 M5
	M3 (M3 ()) + // a comment
#define M8(a) 
	M6 R8 - ADDQ ( M3(( + ) M8(AX)) ) // a comment
#define M9(a, b) \
 ( a )
#define M10() 0x10 \
 <<
	M10 () - 0x10 /* one */
	M0(M1 M0 (0x10 :,,), , -) ( M1 ) << ADDQ M7
#define M11(a, b) ADDQ : \
 ADDQ M4
#define M12() 0x10 M2 R8 M9 (,M5)
#define M13(a, b) M3 () b $ AX M9(M3(a ->), a)
	M11 (M13(, $ M13(-> MOVQ, : ->)) M1,M11 (M13(R8, ),)) M1 M1 /* one */
#define M14 M10() M5 0x10 M2
#define M15(a, b) 
#define M16(a, b, c) M3 (M14) M6 AX M5
#define M17(a, b, c) b c M14 ( : )
#define M18(a, b, c) b M3 () M3(AX) ( R8 ) ( AX )
#undef M18
#define M19() M1 M17(, , ) ( ( . ) ) M9(M9(, 8 ->) ->, M15 (,8) M14) +
	( + ) ->
#undef M19
#define M20 M3 (M5 BX) M3 (M7) \
 BX -
#define M21() $
#ifdef M14
	M14 M6
#ifndef M14
	M21 () /* one */
	. BX M14 BX << /* one */
#ifndef M3
	M1 M9 (,8 M3(BX))
#else
	M6 . R8 . // a comment
#endif
#ifndef M13
	M20 M1 /* one */
	AX M3 (( M4 ) ( M17 (,ADDQ <<,. $) )) M11 (,) M15(0x10, ( M5 )) ( MOVQ )
	M16(, M2 -, M10()) -> M3(-> ( : )) M15(, M13 (( : ),M9(, 8 ADDQ) ( $ )))
	M15(M14, MOVQ ( R8 )) + M16(M16 (8 -,M13(, ) M1,8) ( M14 ), , M20 M1) M9(M7, )
#else
	( M14 ) ( AX ) M10 () M14 $ /* one */
	M14 // a comment
	M17(M5, , M12()) M21 () // a comment
#endif
#else
#ifndef M6
	: M3 (M10() M0 (,,M15(BX $, 0x10))) M9 (,) ( << ) /* one */
	R8 M8(M5) . /* one */
#else
	<< -> // a comment
	M20 M15 (,M14 M2) /* one */
	M21() << M10 () // a comment
#endif
#ifdef M8
	- ( M0 (M7 M12 (),M4 M5,) ) // a comment
	M14 ( ADDQ ) ( ( : ) ) M11(M16 (,M5,M9 (0x10,$ 0x10) ( - )) M15(, M6), ) R8 /* one */
	M3(M21() M12()) M15 (,<<) MOVQ
#endif
	M16(M16(M13 (: 8,. BX) :, , BX) M5, M15 (( BX ),BX), ) M14 M0(M15 (( ADDQ ) .,) M5, , ) + + /* one */
	0x10 M17(M20, M1, ) // a comment
#endif
	M7 M2 ( 0x10 ) // a comment
#else
#ifndef M11
#ifdef M4
	$ R8 // a comment
	M3(M8() ADDQ) M4 M7 M5 M13 (M8 (<< M3()),)
	M17 (M13(MOVQ, M15(, ADDQ)),,M16(M6 :, M11 (,), ) M0 (M17(, R8, ) M8(),- M13(, MOVQ MOVQ),- M11(, + BX))) M4 /* one */
#else
	M14 M14 M11 (<< M16($, MOVQ, M11(, ) M21()),) MOVQ // a comment
	M6 // a comment
#endif
#endif
	: 8 $ M3 (M10 () M13(M9 (BX,), M15 (ADDQ,$))) M12() /* one */
	MOVQ << ( M5 ) M20 M8 () /* one */
	: ADDQ BX /* one */
#endif
	$ M6 ( AX ) ( M21() ) M8(M9 (M21 () R8,))
#define M22(a) ( AX ) M13 (,( : )) a ( ( a ) ) ADDQ
#define M23(a, b) a M4 M2 b R8
#define M24(a, b) ( BX )
	M3() M11(( M22 () ) M8 (), 8) M23 (0x10,$) M23 (M0(<< BX, + M4, M22($)),) M16 (,,) /* one */
	M21() BX M23(M1 ->, M21() M21()) // a comment
#ifdef M1
	M14 ( $ ) M16 (,M0 (M3() .,,- M0 ($ ->,,$ $)) ( M6 ),) M20 // a comment
#ifdef M15
	M0 (AX M8(),,M6 M17 (AX <<,,M10())) M8 () // a comment
	M8 (R8 M14)
	BX M17 (,:,( M23(MOVQ, BX) )) M14 -
#endif
	M10 () M15 (+,) M23 (M6 R8,) M13 (( M3(R8) ),M2 M21()) ( ( M20 ) ) /* one */
#endif
#define M25(a) 
#define M26(a) M22() $ BX
#define M27 M12 () M11(, M23 (:,- -) M17 (+,BX 0x10,)) M22(( 0x10 ))
#define M28(a, b) AX ( BX )
#define M29 R8 M22(AX) \
 M4 M27 M6
	( - ) : M22(M28 (,)) M5
#define M30(a, b, c) <<
#define M31(a, b, c) M2 ( R8 )
	M23(M14, )
	M15(, R8) M27 MOVQ . /* one */
#define M32(a, b) b a M29 \
 ( 0x10 )
#define M33 - BX
	M20 M16(R8 M25 (), M26(R8 MOVQ), ) $ M15(., ) M33 // a comment
	: M9 (( M2 ) R8,M29 M1) /* one */
	M27 MOVQ // a comment
